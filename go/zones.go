package cron

import (
	"archive/zip"
	"io/fs"
	"math"
	"os"
	"path/filepath"
	"runtime"
	"sync"
	"time"
)

// A zone is the history of a clock: the stretches of time in which it has one offset or one rule.
type zone struct {
	location *time.Location
	eras     []era
}

// What was read last of the zones with each name. Another Location of a name may have another file.
var zones sync.Map

// zoneOf returns the zone of a moment's clock.
func zoneOf(moment time.Time) (*zone, error) {
	location := moment.Location()
	if from, until := moment.ZoneBounds(); from.IsZero() && until.IsZero() {
		return fixedZone(moment)
	}
	if kept, ok := zones.Load(location.String()); ok && kept.(*zone).location == location {
		return kept.(*zone), nil
	}
	eras, reason := historyOf(location)
	if reason != "" {
		return nil, &ZoneError{location.String(), reason}
	}
	read := &zone{location, eras}
	zones.Store(location.String(), read)
	return read, nil
}

// The most seconds by which the library takes a clock to be ahead of UTC, or behind it.
const mostOffset = 93_599

// fixedZone returns the zone of a moment whose clock always has the same offset.
func fixedZone(moment time.Time) (*zone, error) {
	location := moment.Location()
	_, offset := moment.Zone()
	if offset < -mostOffset || mostOffset < offset {
		return nil, &ZoneError{location.String(), "its offset is longer than 25:59:59"}
	}
	return &zone{location, fixed(offset)}, nil
}

// fire returns what the clock shows at an item.
func (in *zone) fire(found item) (Fire, error) {
	moment := time.Unix(int64(found.instant), 0).In(in.location)
	if _, offset := moment.Zone(); offset != int(found.offset) {
		return Fire{}, &ZoneError{in.location.String(), "its file isn't what this Location was read from"}
	}
	nominal := time.Unix(int64(found.instant)+int64(found.offset)-int64(found.reserved), 0).UTC()
	return Fire{moment, nominal}, nil
}

// historyOf returns the eras of a location: those of its file, or where none is found, as where the
// program holds the files, those of its clock. Or it says why there are none.
func historyOf(location *time.Location) ([]era, string) {
	for _, path := range pathsOf(location) {
		if data, err := path.read(); err == nil {
			return readHistory(data)
		}
	}
	return checked(erasOfClock(location))
}

// A path is a file's in a folder or a zip.
type path struct{ source, name string }

func (at path) read() ([]byte, error) {
	if filepath.Ext(at.source) != ".zip" {
		return os.ReadFile(filepath.Join(at.source, at.name))
	}
	files, err := zip.OpenReader(at.source)
	if err != nil {
		return nil, err
	}
	defer files.Close()
	return fs.ReadFile(files, at.name)
}

// pathsOf returns where the file of a location may be: first where Go looks for it.
func pathsOf(location *time.Location) (paths []path) {
	name := location.String()
	if location == time.Local && name == "Local" {
		return []path{{"/etc", "localtime"}}
	}
	if location == time.Local && filepath.IsAbs(name) {
		return []path{{"/", name}}
	}
	if !fs.ValidPath(name) {
		return nil
	}
	for _, source := range []string{
		os.Getenv("ZONEINFO"),
		"/usr/share/zoneinfo", "/usr/share/lib/zoneinfo", "/usr/lib/locale/TZ", "/etc/zoneinfo",
		filepath.Join(runtime.GOROOT(), "lib", "time", "zoneinfo.zip"),
		os.Getenv("TZDIR"),
	} {
		if source != "" {
			paths = append(paths, path{source, name})
		}
	}
	return paths
}

// The first moment past all fires on any clock, and one before all.
var (
	beforeAll = time.Unix(math.MinInt64/4, 0)
	pastAll   = time.Date(2101, time.January, 4, 0, 0, 0, 0, time.UTC)
)

// erasOfClock returns an era for each stretch in which the location's clock has one offset.
func erasOfClock(location *time.Location) (eras []era) {
	starts, moment := int64(math.MinInt64), beforeAll.In(location)
	for {
		_, offset := moment.Zone()
		if len(eras) == 0 || offsetOf(eras[len(eras)-1]) != offset {
			eras = append(eras, eraAt(starts, offset))
		}
		_, until := moment.ZoneBounds()
		if until.IsZero() || until.After(pastAll) {
			return eras
		}
		if !until.After(moment) { // as Go tells it of the last day of a leap year
			until = moment.Add(time.Hour)
		}
		starts, moment = until.Unix(), until
	}
}
