package cron

import (
	"errors"
	"fmt"
	"strings"
)

// ErrNoFire says that the schedule fires no more, or hasn't fired yet.
var ErrNoFire = errors.New("there is no such fire")

// ErrNotAFire says that a fire is none that the call takes: its nominal time isn't at its moment,
// or before it by whole seconds, at most 187,198 of them; under the rule AsShown it isn't at the
// moment itself; or it lies outside the years 1970 to 2100, or its offset is 26 hours or more.
var ErrNotAFire = errors.New("the fire is none that the call takes")

// A TextError says why a text means nothing.
type TextError struct {
	Text    string
	Message string // that of the library
}

// Error returns the message, with a word more where the text has the five fields of a crontab.
func (err *TextError) Error() string {
	if len(strings.Fields(err.Text)) == 5 && err.Message == noExpression {
		return err.Message + " Five fields are a crontab's, which ParseCrontab reads."
	}
	return err.Message
}

// What the library says of a text that has another number of fields than it reads.
const noExpression = "Invalid cron expression."

// A ZoneError says why the history of a zone isn't known.
type ZoneError struct {
	Zone   string
	Reason string
}

// Error returns the name of the zone, and the reason.
func (err *ZoneError) Error() string {
	return fmt.Sprintf("zone %s: %s", err.Zone, err.Reason)
}
