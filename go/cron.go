// Package cron reads cron expressions and tells when they fire in time zones, over a proved
// library.
//
//	schedule, err := cron.Parse("0 30 1 * * *")
//	fire, err := schedule.After(time.Now().In(chicago))
//
// The zone is that of the time that is given, and the schedule is read on its clock. A history of
// all transitions comes from the file of the zone. Answers come as time passes, also where a clock
// goes back. No match lies outside the years 1970 to 2100. All may be called by several goroutines
// at once.
//
// A loop asks by Past from the fire that it ran: one that asks by After from the time at which it
// woke loses what came due meanwhile.
package cron

import "bytes"

// ClockChanges is the rule of a schedule where a clock changes.
type ClockChanges int

const (
	// AsShown: a time that the clock repeats is two fires, and one that it skips is none.
	AsShown ClockChanges = iota
	// Once: each match fires once. One that the clock repeats fires at its first pass, and one that it
	// skips when it passes over it. So fires may share a moment.
	Once
)

// A Schedule is what an expression means. The zero value never fires.
type Schedule struct {
	text    string
	crontab bool
	sets    []sets
	changes ClockChanges
}

// Parse reads six fields, or seven with years, as "0 30 9 * * Mon-Fri": seconds come first, and
// Sunday is 1. The error is a TextError.
func Parse(text string) (*Schedule, error) {
	read, err := parse(text)
	if err != nil {
		return nil, err
	}
	return &Schedule{text: text, sets: read}, nil
}

// ParseCrontab reads an expression of a crontab, five fields as "30 9 * * mon-fri", or a nickname.
// Where neither the third nor the fifth field begins with a star one kind of day suffices. The
// error is a TextError, also of `@reboot`, which no clock fires, and of a text of two lines.
//
// Both crons let it follow the clock where its minute or hour begins with a star, or it is
// `@hourly`; take any other one Under(Once). The zone of a crontab's CRON_TZ isn't told.
func ParseCrontab(text string) (*Schedule, error) {
	read, err := parseCrontab(text)
	if err != nil {
		return nil, err
	}
	if len(read) == 0 {
		return nil, &TextError{text, "@reboot means the start of the machine, which no clock tells"}
	}
	return &Schedule{text: text, crontab: true, sets: read}, nil
}

// Under returns the same schedule by a rule at clock changes. Without it the rule is AsShown.
func (schedule *Schedule) Under(changes ClockChanges) *Schedule {
	same := *schedule
	same.changes = changes
	return &same
}

// ClockChanges returns the rule of the schedule at clock changes.
func (schedule *Schedule) ClockChanges() ClockChanges { return schedule.changes }

// IsCrontab tells whether the text is that of a crontab.
func (schedule *Schedule) IsCrontab() bool { return schedule.crontab }

// String returns the text that was read.
func (schedule *Schedule) String() string { return schedule.text }

// Equal tells whether both schedules have the same sets and the same rule.
func (schedule *Schedule) Equal(other *Schedule) bool {
	return schedule.changes == other.changes &&
		bytes.Equal(bytesOf(schedule.sets), bytesOf(other.sets))
}
