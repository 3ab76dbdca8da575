package cron

import "time"

// A Fire is a match and when it comes.
//
// Note both times to go on from it later. A time that was read from a database has an offset and no
// longer its zone: give it its zone by `In` first.
type Fire struct {
	// Moment is when it comes, in the zone that was asked about.
	Moment time.Time
	// Nominal is the date and the time that match, as a clock of UTC would show them. Where the
	// clock passes over them, what it shows at Moment is later, and else the same.
	Nominal time.Time
}

// String returns what the clock shows at the moment, as `2022-11-06 01:30:00 -05:00`, and where
// that isn't the nominal time also that time, as `2022-03-13 03:00:00 -05:00 for 02:30:00`.
func (fire Fire) String() string {
	noted, err := fire.item()
	if err == nil {
		var text string
		if text, err = format(noted); err == nil {
			return text
		}
	}
	return err.Error()
}

// shown returns what a clock shows at a moment as the same time of UTC.
func shown(moment time.Time) time.Time {
	_, offset := moment.Zone()
	return moment.UTC().Add(time.Duration(offset) * time.Second)
}

// The most seconds that a due fire lies past its nominal time.
const mostPast = 187_198

// item returns the fire as the library takes it.
func (fire Fire) item() (item, error) {
	_, offset := fire.Moment.Zone()
	past := shown(fire.Moment).Sub(fire.Nominal)
	if past < 0 || past > mostPast*time.Second || past%time.Second != 0 {
		return item{}, ErrNotAFire
	}
	return itemOf(fire.Moment.Unix(), offset, int64(past/time.Second)), nil
}

// query returns what the calls by instants are asked about.
func (schedule *Schedule) query(in *zone) *query {
	asked := &query{schedules: schedule.sets, eras: in.eras}
	if schedule.changes == Once {
		asked.once = 1
	}
	return asked
}

// answer returns the fire of an item that was found.
func answer(in *zone, found item, err error) (Fire, error) {
	if err != nil {
		return Fire{}, err
	}
	return in.fire(found)
}

// answers returns the fires of the items that were found.
func answers(in *zone, found []item, err error) ([]Fire, error) {
	if err != nil {
		return nil, err
	}
	fires := make([]Fire, len(found))
	for place, it := range found {
		if fires[place], err = in.fire(it); err != nil {
			return nil, err
		}
	}
	return fires, nil
}

// After returns the first fire after a moment. The error is ErrNoFire where it fires no more, or a
// ZoneError.
func (schedule *Schedule) After(moment time.Time) (Fire, error) {
	in, err := zoneOf(moment)
	if err != nil {
		return Fire{}, err
	}
	found, err := schedule.query(in).after(moment.Unix())
	return answer(in, found, err)
}

// By returns the last fire before a moment, or at it. The error is ErrNoFire where it hasn't fired,
// or a ZoneError.
func (schedule *Schedule) By(moment time.Time) (Fire, error) {
	in, err := zoneOf(moment)
	if err != nil {
		return Fire{}, err
	}
	found, err := schedule.query(in).by(moment.Unix())
	return answer(in, found, err)
}

// Past returns the next fire after one that was run, in the zone of its moment. The error is as
// that of After, or ErrNotAFire.
func (schedule *Schedule) Past(fire Fire) (Fire, error) {
	in, noted, err := zoneAndItem(fire)
	if err != nil {
		return Fire{}, err
	}
	found, err := schedule.query(in).past(noted)
	return answer(in, found, err)
}

// At tells whether the schedule fires at this very moment.
func (schedule *Schedule) At(moment time.Time) (bool, error) {
	fire, err := schedule.By(moment)
	if err == ErrNoFire {
		return false, nil
	}
	return err == nil && fire.Moment.Equal(moment), err
}

// Between lists the fires after one moment and up to and with another, in the zone of the first.
func (schedule *Schedule) Between(start, end time.Time) ([]Fire, error) {
	in, err := zoneOf(start)
	if err != nil {
		return nil, err
	}
	found, err := schedule.query(in).allBetween(start.Unix(), end.Unix())
	return answers(in, found, err)
}

// Since lists the fires past one that was run, up to and with a moment, in the zone of its moment.
func (schedule *Schedule) Since(fire Fire, end time.Time) ([]Fire, error) {
	in, noted, err := zoneAndItem(fire)
	if err != nil {
		return nil, err
	}
	found, err := schedule.query(in).allPast(noted, end.Unix())
	return answers(in, found, err)
}

func zoneAndItem(fire Fire) (*zone, item, error) {
	noted, err := fire.item()
	if err != nil {
		return nil, item{}, err
	}
	in, err := zoneOf(fire.Moment)
	return in, noted, err
}
