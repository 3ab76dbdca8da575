package cron_test

import (
	"bufio"
	"errors"
	"os"
	"reflect"
	"strconv"
	"strings"
	"testing"
	"time"

	"example.org/cron"
)

// The rows of the repository, whose answers come from elsewhere.
const (
	replayed = "../crates/cron_test_replay/data/"
	crontabs = "../crates/cron_test_tabs/data/"
	shell    = "../crates/crontool/cases/"
)

// The zones that rows of the years from 2008 on name otherwise than the zone database.
var places = map[string]string{
	"CST6CDT,M3.2.0,M11.1.0": "America/Chicago", "Chicago": "America/Chicago", "New York": "America/New_York",
	"Los Angeles": "America/Los_Angeles", "São Paulo": "America/Sao_Paulo", "London": "Europe/London",
	"Berlin": "Europe/Berlin", "Helsinki": "Europe/Helsinki", "Kolkata": "Asia/Kolkata", "Tokyo": "Asia/Tokyo",
	"Sydney": "Australia/Sydney", "Lord Howe": "Australia/Lord_Howe", "Auckland": "Pacific/Auckland", "UTC": "UTC",
}

// located returns the zone that a row names, if it is one of the zone database or one offset.
func located(t *testing.T, name string) *time.Location {
	if seconds, ok := cut(name, "fixed "); ok {
		offset, err := strconv.Atoi(seconds)
		check(t, err)
		return time.FixedZone("", offset)
	}
	if file, ok := cut(name, "file "); ok {
		return load(t, file)
	}
	if place, ok := places[name]; ok {
		return load(t, place)
	}
	return nil
}

// cut returns what follows a prefix.
func cut(text, prefix string) (string, bool) {
	return strings.TrimPrefix(text, prefix), strings.HasPrefix(text, prefix)
}

func check(t *testing.T, err error) {
	t.Helper()
	if err != nil {
		t.Fatal(err)
	}
}

func load(t *testing.T, name string) *time.Location {
	t.Helper()
	location, err := time.LoadLocation(name)
	check(t, err)
	return location
}

func parsed(t *testing.T, text string) *cron.Schedule {
	t.Helper()
	schedule, err := cron.Parse(text)
	check(t, err)
	return schedule
}

func instant(t *testing.T, text string) time.Time {
	t.Helper()
	if text == "-009999-01-02T01:59:59Z" { // the least that the library takes, whose year Go doesn't read
		return time.Date(-9999, 1, 2, 1, 59, 59, 0, time.UTC)
	}
	moment, err := time.Parse(time.RFC3339, text)
	check(t, err)
	return moment
}

// rows returns the parts of each line of a file that is no comment.
func rows(t *testing.T, path, separator string) (found [][]string) {
	file, err := os.Open(path)
	check(t, err)
	defer file.Close()
	lines := bufio.NewScanner(file)
	for lines.Scan() {
		if !strings.HasPrefix(lines.Text(), "# ") {
			found = append(found, strings.Split(lines.Text(), separator))
		}
	}
	check(t, lines.Err())
	return found
}

// texts returns what fires show, or `none`.
func texts(fires []cron.Fire) string {
	if len(fires) == 0 {
		return "none"
	}
	var shown []string
	for _, fire := range fires {
		shown = append(shown, fire.String())
	}
	return strings.Join(shown, ", ")
}

// run asks for a fire after a moment, and then for each past the one before.
func run(t *testing.T, schedule *cron.Schedule, moment time.Time, count int) (fires []cron.Fire) {
	fire, err := schedule.After(moment)
	for ; err == nil && len(fires) < count; fire, err = schedule.Past(fire) {
		fires = append(fires, fire)
	}
	if err != nil && err != cron.ErrNoFire {
		t.Fatal(err)
	}
	return fires
}

// last asks for the fire by a moment.
func last(t *testing.T, schedule *cron.Schedule, moment time.Time) []cron.Fire {
	fire, err := schedule.By(moment)
	if err == cron.ErrNoFire {
		return nil
	}
	check(t, err)
	return []cron.Fire{fire}
}

// cutAnywhere lists the fires between two moments, and holds each of its rests against what follows that fire.
func cutAnywhere(t *testing.T, schedule *cron.Schedule, start, end time.Time) []cron.Fire {
	fires, err := schedule.Between(start, end)
	check(t, err)
	for place, fire := range fires {
		rest, err := schedule.Since(fire, end)
		check(t, err)
		if texts(rest) != texts(fires[place+1:]) {
			t.Errorf("%s past %s: %s", schedule, fire, texts(rest))
		}
	}
	return fires
}

// answered asks what a row tells of: the last fire by an instant, all between two, or as many after one.
func answered(t *testing.T, schedule *cron.Schedule, location *time.Location, row []string, by bool) []cron.Fire {
	start, wanted := instant(t, row[2]).In(location), row[len(row)-1]
	switch {
	case by:
		return last(t, schedule, start)
	case len(row) == 5:
		return cutAnywhere(t, schedule, start, instant(t, row[3]))
	}
	return run(t, schedule, start, strings.Count(wanted, ",")+1)
}

func TestRowsOfFires(t *testing.T) {
	for _, it := range []struct {
		file    string
		changes cron.ClockChanges
		least   int
	}{
		{"fires_after.txt", cron.AsShown, 1440},
		{"fires_by.txt", cron.AsShown, 1440},
		{"fires_between.txt", cron.AsShown, 864},
		{"dues_after.txt", cron.Once, 110},
		{"dues_by.txt", cron.Once, 90},
		{"dues_between.txt", cron.Once, 272},
	} {
		count := 0
		for _, row := range rows(t, replayed+it.file, " | ") {
			location := located(t, row[1])
			if location == nil {
				continue
			}
			schedule := parsed(t, row[0]).Under(it.changes)
			told := answered(t, schedule, location, row, strings.HasSuffix(it.file, "_by.txt"))
			// a run that is told to end was asked for one fire more
			wanted := strings.TrimSuffix(row[len(row)-1], ", None")
			if wanted != texts(told) && (wanted != "None" || len(told) > 0) {
				t.Errorf("%s: %s", strings.Join(row, " | "), texts(told))
			}
			count++
		}
		if count < it.least {
			t.Errorf("%s: %d rows", it.file, count)
		}
	}
}

// read reads the expression of a row as a crontab's, where it has five fields.
func read(t *testing.T, text string) *cron.Schedule {
	if len(strings.Fields(text)) == 5 {
		schedule, err := cron.ParseCrontab(text)
		check(t, err)
		return schedule
	}
	return parsed(t, text)
}

// shellRow is a row of the program for a shell: `between START END` or `next COUNT`, an expression, and options.
func shellRow(t *testing.T, words []string) (schedule *cron.Schedule, ask func() []cron.Fire) {
	option := map[string]string{}
	for place := 3; place+1 < len(words); place++ {
		option[words[place]] = words[place+1]
	}
	location, changes := load(t, option["--zone"]), cron.AsShown
	if words[len(words)-1] == "--once" {
		changes = cron.Once
	}
	if words[0] == "between" {
		end, err := strconv.ParseInt(strings.TrimPrefix(words[2], "@"), 10, 64)
		check(t, err)
		schedule = read(t, words[3]).Under(changes)
		return schedule, func() []cron.Fire {
			return cutAnywhere(t, schedule, instant(t, words[1]).In(location), time.Unix(end, 0))
		}
	}
	after, err := time.ParseInLocation("2006-01-02", option["--after"], location)
	count, failed := strconv.Atoi(words[1])
	if err != nil || failed != nil || after.Format("2006-01-02") != option["--after"] {
		return nil, nil // no day that this clock shows
	}
	schedule = read(t, words[2]).Under(changes)
	return schedule, func() []cron.Fire { return run(t, schedule, after, count) }
}

func TestRowsOfCrontabsInZones(t *testing.T) {
	count := 0
	for _, row := range rows(t, shell+"fires.tsv", "\t=\t") {
		words := strings.Split(row[0], "\t")
		if rule := words[len(words)-1]; rule != "--once" && rule != "--as-shown" {
			continue
		}
		schedule, ask := shellRow(t, words)
		if schedule == nil {
			continue
		}
		wanted, fires := strings.ReplaceAll(row[1], "\t", ", "), ask()
		if wanted != texts(fires) && (wanted != "" || len(fires) > 0) {
			t.Errorf("%s: %s, and not %s", row[0], texts(fires), wanted)
		}
		count++
	}
	if count < 60 {
		t.Errorf("%d rows", count)
	}
}

func TestRowsOfTexts(t *testing.T) {
	count := 0
	for _, it := range []struct {
		path string
		read func(string) (*cron.Schedule, error)
	}{
		{replayed + "texts_faults.txt", cron.Parse}, {replayed + "texts_names_days_of_week.txt", cron.Parse},
		{replayed + "texts_names_first_half_year.txt", cron.Parse}, {crontabs + "messages.txt", cron.ParseCrontab},
	} {
		for _, row := range rows(t, it.path, " | ") {
			if len(row) != 2 {
				continue
			}
			var refusal *cron.TextError
			schedule, err := it.read(row[0])
			if same, none := it.read(row[1]); none == nil {
				if err != nil || !schedule.Equal(same) || !reflect.DeepEqual(schedule.Canonical(), row[1:]) {
					t.Errorf("%q isn't %q: %v", row[0], row[1], err)
				}
			} else if !errors.As(err, &refusal) || refusal.Message != row[1] {
				t.Errorf("%q: %v, and not %s", row[0], err, row[1])
			}
			count++
		}
	}
	if count < 100 {
		t.Errorf("%d rows", count)
	}
}

// members returns the numbers from the first on whose bit is set in a number of 16s.
func members(t *testing.T, hex string, first int) (found []int) {
	bits, err := strconv.ParseUint(hex, 16, 64)
	check(t, err)
	for it := first; it < 64; it++ {
		if bits>>it&1 == 1 {
			found = append(found, it)
		}
	}
	return found
}

// asCronsHaveIt tells whether each day of a leap year has a fire exactly where the crons match it.
func asCronsHaveIt(t *testing.T, schedule *cron.Schedule, told []string) bool {
	holds := func(set []int, it int) bool {
		for _, member := range set {
			if member == it {
				return true
			}
		}
		return false
	}
	days, months, weekdays := members(t, told[3], 1), members(t, told[4], 1), members(t, told[5], 0)
	minutes, hours := members(t, told[1], 0), members(t, told[2], 0)
	for day := time.Date(2024, 1, 1, 0, 0, 0, 0, time.UTC); day.Year() == 2024; day = day.AddDate(0, 0, 1) {
		month, week := holds(days, day.Day()), holds(weekdays, int(day.Weekday()))
		wanted := month && week
		if told[6] == "0" && told[7] == "0" {
			wanted = month || week
		}
		wanted = wanted && holds(months, int(day.Month())) && len(minutes) > 0 && len(hours) > 0
		fire, err := schedule.After(day.Add(-time.Second))
		if err != nil && err != cron.ErrNoFire {
			t.Fatal(err)
		}
		first := err == nil && fire.Moment.YearDay() == day.YearDay() && fire.Moment.Year() == 2024
		if first != wanted || wanted && (fire.Moment.Hour() != hours[0] || fire.Moment.Minute() != minutes[0]) {
			return false
		}
	}
	return true
}

func TestRowsOfCrons(t *testing.T) {
	accepted, refused := 0, 0
	for _, row := range rows(t, crontabs+"lines.tsv", "\t") {
		schedule, err := cron.ParseCrontab(row[0])
		told := strings.Fields(row[1])
		if row[1] != row[2] || told[0] != "OK" || told[8] == "1" {
			if err == nil {
				t.Errorf("%q is read", row[0])
			}
			refused++
			continue
		}
		check(t, err)
		if !asCronsHaveIt(t, schedule, told) {
			t.Errorf("%q is read otherwise than by the crons", row[0])
		}
		accepted++
	}
	if accepted < 1200 || refused < 70 {
		t.Errorf("%d rows of accepted lines, and %d of others", accepted, refused)
	}
}
