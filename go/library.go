package cron

/*
#include "cron_c.h"

// Each call under both rules: at clock changes each match comes once, or as the clock shows it.

static uint32_t after(int once, const cron_c_schedule *schedules, size_t schedules_length,
                      const cron_c_era *eras, size_t eras_length,
                      int64_t instant, cron_c_item *item)
{
    return (once ? cron_c_union_due_after : cron_c_union_fire_after)(
        schedules, schedules_length, eras, eras_length, instant, item);
}

static uint32_t by(int once, const cron_c_schedule *schedules, size_t schedules_length,
                   const cron_c_era *eras, size_t eras_length, int64_t instant, cron_c_item *item)
{
    return (once ? cron_c_union_due_by : cron_c_union_fire_by)(
        schedules, schedules_length, eras, eras_length, instant, item);
}

static uint32_t between(int once, const cron_c_schedule *schedules, size_t schedules_length,
                        const cron_c_era *eras, size_t eras_length, int64_t last, int64_t now,
                        cron_c_item *items, size_t items_length, size_t *count)
{
    return (once ? cron_c_union_dues_between : cron_c_union_fires_between)(
        schedules, schedules_length, eras, eras_length, last, now, items, items_length, count);
}

static uint32_t past(int once, const cron_c_schedule *schedules, size_t schedules_length,
                     const cron_c_era *eras, size_t eras_length,
                     const cron_c_item *item, int64_t now,
                     cron_c_item *items, size_t items_length, size_t *count)
{
    return (once ? cron_c_union_dues_past : cron_c_union_fires_past)(
        schedules, schedules_length, eras, eras_length, item, now, items, items_length, count);
}
*/
import "C"

import (
	"fmt"
	"math"
	"unsafe"
)

// The structs of the library. None holds a pointer, so all are Go's own memory.
type (
	sets = C.cron_c_schedule
	item = C.cron_c_item
	era  = C.cron_c_era
)

// How many items a call wrote.
type written = C.size_t

// How many items a first and a later page have room for.
const firstPage, laterPage = 16, 1024

// A query is what the calls are asked about: schedules that fire as one, and the eras of a zone.
type query struct {
	once      C.int
	schedules []sets
	eras      []era
}

// Version returns that of the library.
func Version() string {
	version := C.cron_c_version()
	return fmt.Sprintf("%d.%d.%d", version/10_000, version/100%100, version%100)
}

func textOf(status C.uint32_t) string {
	return C.GoString(C.cron_c_status_text(status))
}

// start returns the address of a list's first member, which is one also where the list is empty.
func start[T any](list []T) *T {
	if len(list) == 0 {
		return new(T)
	}
	return &list[0]
}

// chars returns the bytes of a text or for one, as a call takes them.
func chars(bytes []byte) (*C.char, C.size_t) {
	return (*C.char)(unsafe.Pointer(start(bytes))), C.size_t(len(bytes))
}

// read calls with a text and with room for the message that refuses it.
func read(text string, call func(text, message []byte, needed *C.size_t) C.uint32_t) error {
	message := make([]byte, 2*len(text)+100) // as CRON_C_MESSAGE has it
	var needed C.size_t
	switch status := call([]byte(text), message, &needed); status {
	case C.CRON_C_OK:
		return nil
	case C.CRON_C_REFUSED:
		return &TextError{text, string(message[:needed])}
	default:
		return &TextError{text, textOf(status)}
	}
}

// parse returns the schedule that a text means.
func parse(text string) ([]sets, error) {
	schedules := make([]sets, 1)
	err := read(text, func(text, message []byte, needed *C.size_t) C.uint32_t {
		from, length := chars(text)
		to, room := chars(message)
		return C.cron_c_parse(from, length, &schedules[0], to, room, needed)
	})
	return schedules, err
}

// parseCrontab returns the schedules that an expression of a crontab means, of which one suffices.
func parseCrontab(text string) ([]sets, error) {
	schedules := make([]sets, 2)
	var count C.size_t
	err := read(text, func(text, message []byte, needed *C.size_t) C.uint32_t {
		from, length := chars(text)
		to, room := chars(message)
		most := C.size_t(len(schedules))
		return C.cron_c_crontab_parse(from, length, &schedules[0], most, &count, to, room, needed)
	})
	return schedules[:count], err
}

// canonicalText returns the canonical text of sets, and false where one is empty.
func canonicalText(it *sets) (string, bool) {
	text := make([]byte, C.CRON_C_SCHEDULE_TEXT)
	var needed C.size_t
	to, room := chars(text)
	status := C.cron_c_canonical(it, to, room, &needed)
	if status == C.CRON_C_NOT_AN_ITEM {
		return "", false
	}
	if status != C.CRON_C_OK {
		panic("cron_c: " + textOf(status)) // never, since the sets were read of a text
	}
	return string(text[:needed]), true
}

// fixed returns the history of a clock that stays so many seconds ahead of UTC.
func fixed(offset int) []era {
	return []era{eraAt(math.MinInt64, offset)}
}

// eraAt returns the era of one offset that starts at an instant.
func eraAt(starts int64, offset int) era {
	made := era{starts: C.int64_t(starts)}
	made.zone.kind, made.zone.offset = 1, C.int32_t(offset)
	return made
}

// offsetOf returns the offset of an era that has one.
func offsetOf(it era) int { return int(it.zone.offset) }

// checked returns eras that are a history, and says why others are none.
func checked(eras []era) ([]era, string) {
	if status := C.cron_c_history_check(start(eras), C.size_t(len(eras))); status != C.CRON_C_OK {
		return nil, textOf(status)
	}
	return eras, ""
}

// readHistory returns the eras that the bytes of a zone's file mean, or says why they mean none.
func readHistory(data []byte) ([]era, string) {
	var eras []era
	for {
		var count C.size_t
		bytes, length := (*C.uint8_t)(unsafe.Pointer(start(data))), C.size_t(len(data))
		status := C.cron_c_history_read(bytes, length, start(eras), C.size_t(len(eras)), &count)
		switch status {
		case C.CRON_C_OK:
			return checked(eras)
		case C.CRON_C_MORE:
			eras = make([]era, count)
		case C.CRON_C_BAD_ZONE:
			return nil, "its file is no zone file, or contradicts itself"
		default:
			return nil, textOf(status)
		}
	}
}

// within returns the nearest instant that the calls take.
func within(instant int64) C.int64_t {
	if instant < C.CRON_C_LEAST_INSTANT {
		return C.CRON_C_LEAST_INSTANT
	}
	if instant > C.CRON_C_GREATEST_INSTANT {
		return C.CRON_C_GREATEST_INSTANT
	}
	return C.int64_t(instant)
}

// errorOf returns what a status means to a caller.
func errorOf(status C.uint32_t) error {
	switch status {
	case C.CRON_C_OK:
		return nil
	case C.CRON_C_NO_ITEM:
		return ErrNoFire
	case C.CRON_C_NOT_AN_ITEM:
		return ErrNotAFire
	}
	return fmt.Errorf("cron_c: %s", textOf(status))
}

// after returns the earliest item after an instant.
func (asked *query) after(instant int64) (found item, err error) {
	err = errorOf(C.after(asked.once, start(asked.schedules), C.size_t(len(asked.schedules)),
		start(asked.eras), C.size_t(len(asked.eras)), within(instant), &found))
	return found, err
}

// by returns the latest item up to and with an instant.
func (asked *query) by(instant int64) (found item, err error) {
	err = errorOf(C.by(asked.once, start(asked.schedules), C.size_t(len(asked.schedules)),
		start(asked.eras), C.size_t(len(asked.eras)), within(instant), &found))
	return found, err
}

// pageBetween writes the items after one instant and up to and with another, as far as they fit.
func (asked *query) pageBetween(last, now int64, items []item) (written, C.uint32_t) {
	var count written
	status := C.between(asked.once, start(asked.schedules), C.size_t(len(asked.schedules)),
		start(asked.eras), C.size_t(len(asked.eras)), within(last), within(now),
		start(items), C.size_t(len(items)), &count)
	return count, status
}

// pagePast writes the items past one and up to and with an instant, as far as they fit.
func (asked *query) pagePast(noted item, now int64, items []item) (written, C.uint32_t) {
	var count written
	status := C.past(asked.once, start(asked.schedules), C.size_t(len(asked.schedules)),
		start(asked.eras), C.size_t(len(asked.eras)), &noted, within(now),
		start(items), C.size_t(len(items)), &count)
	return count, status
}

// past returns the first item past one.
func (asked *query) past(noted item) (item, error) {
	var next [1]item
	count, status := asked.pagePast(noted, math.MaxInt64, next[:])
	switch {
	case status != C.CRON_C_OK && status != C.CRON_C_MORE:
		return item{}, errorOf(status)
	case count == 0:
		return item{}, ErrNoFire
	}
	return next[0], nil
}

// rest returns the items of a first page and those past it, up to and with an instant.
func (asked *query) rest(now int64, first func([]item) (written, C.uint32_t)) ([]item, error) {
	page := make([]item, firstPage)
	count, status := first(page)
	listed := page[:count:count]
	for status == C.CRON_C_MORE {
		if len(page) != laterPage {
			page = make([]item, laterPage)
		}
		count, status = asked.pagePast(listed[len(listed)-1], now, page)
		listed = append(listed, page[:count]...)
	}
	return listed, errorOf(status)
}

// allBetween lists the items after one instant and up to and with another.
func (asked *query) allBetween(last, now int64) ([]item, error) {
	return asked.rest(now, func(page []item) (written, C.uint32_t) {
		return asked.pageBetween(last, now, page)
	})
}

// allPast lists the items past one and up to and with an instant.
func (asked *query) allPast(noted item, now int64) ([]item, error) {
	return asked.rest(now, func(page []item) (written, C.uint32_t) {
		return asked.pagePast(noted, now, page)
	})
}

// itemOf returns the item at an instant and an offset, so many seconds past its nominal time.
func itemOf(instant int64, offset int, past int64) item {
	return item{instant: C.int64_t(instant), offset: C.int32_t(offset), reserved: C.uint32_t(past)}
}

// format returns the text of an item, as `2022-03-13 03:00:00 -05:00 for 02:30:00`.
func format(shown item) (string, error) {
	text := make([]byte, C.CRON_C_DUE_TEXT)
	var needed C.size_t
	to, room := chars(text)
	if err := errorOf(C.cron_c_due_format(&shown, to, room, &needed)); err != nil {
		return "", err
	}
	return string(text[:needed]), nil
}
