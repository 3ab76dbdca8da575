package cron_test

import (
	"archive/zip"
	"errors"
	"io/fs"
	"os"
	"path/filepath"
	"strings"
	"testing"
	"time"

	"example.org/cron"
)

const files = "/usr/share/zoneinfo"

// names returns those of the zones of this machine.
func names(t *testing.T) (found []string) {
	check(t, filepath.WalkDir(files, func(path string, it fs.DirEntry, err error) error {
		name := strings.TrimPrefix(path, files+"/")
		if err != nil || it.IsDir() {
			return err
		}
		if _, none := time.LoadLocation(name); none == nil && name != "localtime" && !strings.HasPrefix(name, "right/") {
			found = append(found, name)
		}
		return nil
	}))
	return found
}

// quarters returns the instants after one and up to another at which a clock shows a quarter of an hour. In
// the years below each clock is whole minutes ahead of UTC.
func quarters(location *time.Location, start, end time.Time) (found []int64) {
	for at := start.Unix(); at <= end.Unix(); at += 60 {
		if shown := time.Unix(at, 0).In(location); at > start.Unix() && shown.Minute()%15 == 0 {
			found = append(found, at)
		}
	}
	return found
}

// days returns days of these years in UTC that hold a transition, and the first of each year.
func days(location *time.Location) (found []time.Time) {
	for _, year := range []int{1974, 2025, 2040} {
		moment := time.Date(year, 1, 1, 0, 0, 0, 0, time.UTC)
		found = append(found, moment)
		for {
			_, until := moment.In(location).ZoneBounds()
			if until.IsZero() || until.UTC().Year() > year {
				break
			}
			if !until.After(moment) { // as Go tells it of the last day of a leap year
				until = moment.Add(24 * time.Hour)
			}
			moment = until.UTC()
			found = append(found, moment.Truncate(24*time.Hour))
		}
	}
	return found
}

func TestEachZoneFiresAsItsClockShows(t *testing.T) {
	schedule, count := parsed(t, "0 */15 * * * *"), 0
	for _, name := range names(t) {
		location := load(t, name)
		for _, day := range days(location) {
			start, end := day, day.AddDate(0, 0, 1)
			fires, err := schedule.Between(start.In(location), end)
			check(t, err)
			wanted := quarters(location, start, end)
			if len(fires) != len(wanted) {
				t.Fatalf("%s on %v: %d fires, and not %d", name, day, len(fires), len(wanted))
			}
			for place, fire := range fires {
				if fire.Moment.Unix() != wanted[place] || fire.Moment.Location() != location {
					t.Fatalf("%s on %v: %v", name, day, fire)
				}
			}
			count += len(fires)
		}
	}
	if count < 100_000 {
		t.Errorf("%d fires", count)
	}
}

// made returns a Location of this name that is as the file of another zone has it.
func made(t *testing.T, name, of string) *time.Location {
	data, err := os.ReadFile(filepath.Join(files, of))
	check(t, err)
	location, err := time.LoadLocationFromTZData(name, data)
	check(t, err)
	return location
}

// place puts the file of a zone into a folder under a name.
func place(t *testing.T, folder, name, of string) {
	data, err := os.ReadFile(filepath.Join(files, of))
	check(t, err)
	check(t, os.WriteFile(filepath.Join(folder, name), data, 0o600))
}

// nine asks for nine o'clock of a summer's day, and returns how far the clock is ahead then.
func nine(t *testing.T, location *time.Location) (string, error) {
	fire, err := parsed(t, "0 0 9 * * *").After(time.Date(2024, 7, 1, 0, 0, 0, 0, location))
	return fire.Moment.Format("15:04 -0700"), err
}

func shows(t *testing.T, location *time.Location, wanted string) {
	t.Helper()
	if told, err := nine(t, location); err != nil || told != "09:00 "+wanted {
		t.Errorf("%v: %s, %v", location, told, err)
	}
}

func refused(t *testing.T, location *time.Location, reason string) {
	t.Helper()
	var refusal *cron.ZoneError
	if told, err := nine(t, location); !errors.As(err, &refusal) || !strings.Contains(refusal.Reason, reason) {
		t.Errorf("%v: %s, %v", location, told, err)
	}
}

func TestZonesOfOneOffset(t *testing.T) {
	for wanted, location := range map[string]*time.Location{
		"+0000": time.UTC, "+0545": time.FixedZone("", 20700), "-0330": time.FixedZone("America/Chicago", -12600),
		"+0900": load(t, "Etc/GMT-9"),
	} {
		shows(t, location, wanted)
	}
	fire, err := parsed(t, "0 0 0 1 1 * 1970").After(time.Date(1969, 12, 1, 0, 0, 0, 0, time.FixedZone("", 20730)))
	if err != nil || fire.String() != "1970-01-01 00:00:00 +05:45:30" {
		t.Errorf("%v, %v", fire, err)
	}
	shows(t, time.FixedZone("", 93_599), "+2559")
	for _, offset := range []int{93_600, -93_600} {
		refused(t, time.FixedZone("", offset), "longer than 25:59:59")
	}
}

func TestFilesAreFoundAsGoFindsThem(t *testing.T) {
	folder, zipped := t.TempDir(), filepath.Join(t.TempDir(), "zones.zip")
	place(t, folder, "Moved", "Europe/Berlin")
	file, err := os.Create(zipped)
	check(t, err)
	archive := zip.NewWriter(file)
	inside, err := archive.Create("Moved")
	check(t, err)
	data, err := os.ReadFile(filepath.Join(files, "Europe/Berlin"))
	check(t, err)
	_, err = inside.Write(data)
	check(t, err)
	check(t, archive.Close())
	check(t, file.Close())
	for variable, sources := range map[string][]string{"ZONEINFO": {folder, zipped}, "TZDIR": {folder}} {
		for _, source := range sources {
			t.Run(variable+"="+filepath.Ext(source), func(t *testing.T) {
				t.Setenv(variable, source)
				shows(t, made(t, "Moved", "Europe/Berlin"), "+0200")
				refused(t, made(t, "Moved", "Europe/London"), "isn't what this Location was read from")
			})
		}
	}
}

func TestAFileThatIsRefused(t *testing.T) {
	folder := t.TempDir()
	check(t, os.WriteFile(filepath.Join(folder, "Moved"), []byte("TZif"), 0o600))
	t.Setenv("ZONEINFO", folder)
	refused(t, made(t, "Moved", "Europe/Berlin"), "no zone file, or contradicts itself")
}

func TestALocationIsReadAnew(t *testing.T) {
	folder := t.TempDir()
	t.Setenv("ZONEINFO", folder)
	for of, wanted := range map[string]string{"Europe/Berlin": "+0200", "America/Chicago": "-0500"} {
		place(t, folder, "Moved", of)
		shows(t, made(t, "Moved", of), wanted)
	}
}

func TestALocationWithoutAFileIsAsItsClockShows(t *testing.T) {
	schedule := parsed(t, "0 30 * * * *").Under(cron.Once)
	for place, of := range names(t) {
		name := []string{"No/Such", "../" + of, ""}[place%3] // none can be that of a file
		location, same := made(t, name, of), load(t, of)
		for _, start := range []time.Time{utc(1974, 1, 6), utc(2025, 3, 9), utc(2040, 12, 31), utc(2099, 11, 1)} {
			end := start.AddDate(0, 0, 1)
			fires, err := schedule.Between(start.In(location), end)
			check(t, err)
			wanted, err := schedule.Between(start.In(same), end)
			check(t, err)
			if texts(fires) != texts(wanted) {
				t.Errorf("%s: %s, and not %s", of, texts(fires), texts(wanted))
			}
		}
	}
}

func TestTheZoneOfTheMachine(t *testing.T) {
	start := utc(2024, 3, 1)
	fires, err := parsed(t, "0 0 */6 * * *").Between(start.Local(), start.AddDate(0, 1, 0))
	check(t, err)
	if len(fires) < 120 {
		t.Error(texts(fires))
	}
	for _, fire := range fires {
		if fire.Moment.Hour()%6 != 0 || fire.Moment.Location() != time.Local {
			t.Error(fire)
		}
	}
}
