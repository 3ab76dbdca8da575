package cron

import (
	"math/bits"
	"unsafe"
)

// bytesOf returns the bytes of the structs.
func bytesOf(list []sets) []byte {
	size := int(unsafe.Sizeof(sets{}))
	return unsafe.Slice((*byte)(unsafe.Pointer(start(list))), size*len(list))
}

// Canonical returns the canonical text of the schedule, or of a crontab's expression that means two
// schedules both, but for one that never fires: seven fields, each a star or its runs of numbers as
// `0-4,30`, with `L` last among the days of the month. Parse reads each back to the same sets.
func (schedule *Schedule) Canonical() []string {
	var texts []string
	for i := range schedule.sets {
		if text, ok := canonicalText(&schedule.sets[i]); ok {
			texts = append(texts, text)
		}
	}
	return texts
}

// numbers returns the members of a set, whose words of 64 bits go from a number on.
func (schedule *Schedule) numbers(first int, words func(*sets) []uint64) []int {
	var all [3]uint64
	for i := range schedule.sets {
		for place, word := range words(&schedule.sets[i]) {
			all[place] |= word
		}
	}
	var found []int
	for place, word := range all {
		for ; word != 0; word &= word - 1 {
			found = append(found, first+64*place+bits.TrailingZeros64(word))
		}
	}
	return found
}

// Seconds returns the seconds, 0 to 59.
func (schedule *Schedule) Seconds() []int {
	return schedule.numbers(0, func(it *sets) []uint64 { return []uint64{uint64(it.seconds)} })
}

// Minutes returns the minutes, 0 to 59.
func (schedule *Schedule) Minutes() []int {
	return schedule.numbers(0, func(it *sets) []uint64 { return []uint64{uint64(it.minutes)} })
}

// Hours returns the hours, 0 to 23.
func (schedule *Schedule) Hours() []int {
	return schedule.numbers(0, func(it *sets) []uint64 { return []uint64{uint64(it.hours)} })
}

// DaysOfMonth returns the days of the month, 1 to 31. LastDay stands apart. Where one kind of day
// suffices a crontab, these are all days, and so are DaysOfWeek.
func (schedule *Schedule) DaysOfMonth() []int {
	return schedule.numbers(1, func(it *sets) []uint64 { return []uint64{uint64(it.days_of_month)} })
}

// LastDay tells whether the last day of each month is one of the days too, as `L` says.
func (schedule *Schedule) LastDay() bool {
	for i := range schedule.sets {
		if schedule.sets[i].last_day != 0 {
			return true
		}
	}
	return false
}

// Months returns the months, 1 to 12.
func (schedule *Schedule) Months() []int {
	return schedule.numbers(1, func(it *sets) []uint64 { return []uint64{uint64(it.months)} })
}

// DaysOfWeek returns the days of the week, 1 to 7 from Sunday on.
func (schedule *Schedule) DaysOfWeek() []int {
	return schedule.numbers(1, func(it *sets) []uint64 { return []uint64{uint64(it.days_of_week)} })
}

// Years returns the years, 1970 to 2100.
func (schedule *Schedule) Years() []int {
	return schedule.numbers(1970, func(it *sets) []uint64 {
		return []uint64{
			uint64(it.years_from_1970), uint64(it.years_from_2034), uint64(it.years_from_2098),
		}
	})
}
