package cron_test

import (
	"errors"
	"fmt"
	"os"
	"reflect"
	"strings"
	"sync"
	"testing"
	"time"

	"example.org/cron"
)

func Example() {
	chicago, err := time.LoadLocation("America/Chicago")
	if err != nil {
		panic(err)
	}
	schedule, err := cron.Parse("0 30 1 * * *")
	if err != nil {
		panic(err)
	}
	fire, err := schedule.After(time.Date(2022, time.November, 5, 12, 0, 0, 0, chicago))
	for runs := 0; err == nil && runs < 3; runs++ {
		fmt.Println(fire) // sleep until fire.Moment, and run the job
		fire, err = schedule.Past(fire)
	}
	if _, err := cron.Parse("0 0 25 * * *"); err != nil {
		fmt.Println("error:", err)
	}
	// Output:
	// 2022-11-06 01:30:00 -05:00
	// 2022-11-06 01:30:00 -06:00
	// 2022-11-07 01:30:00 -06:00
	// error: Hours must be less than 23. ('25' specified.)
}

func ExampleSchedule_Under() {
	chicago, err := time.LoadLocation("America/Chicago")
	if err != nil {
		panic(err)
	}
	schedule, err := cron.ParseCrontab("*/30 2 * * sun")
	if err != nil {
		panic(err)
	}
	day := time.Date(2022, time.March, 13, 0, 0, 0, 0, chicago)
	for _, changes := range []cron.ClockChanges{cron.AsShown, cron.Once} {
		fires, err := schedule.Under(changes).Between(day, day.AddDate(0, 0, 1))
		fmt.Println(fires, err)
	}
	// Output:
	// [] <nil>
	// [2022-03-13 03:00:00 -05:00 for 02:00:00 2022-03-13 03:00:00 -05:00 for 02:30:00] <nil>
}

func utc(parts ...int) time.Time {
	all := [6]int{0, 1, 1}
	copy(all[:], parts)
	return time.Date(all[0], time.Month(all[1]), all[2], all[3], all[4], all[5], 0, time.UTC)
}

func TestTheVersionIsThatOfTheLibrary(t *testing.T) {
	makefile, err := os.ReadFile("../crates/cron_c/Makefile")
	check(t, err)
	if !strings.Contains(string(makefile), "\nVERSION = "+cron.Version()+"\n") {
		t.Errorf("the library has version %s", cron.Version())
	}
}

func TestSets(t *testing.T) {
	schedule := parsed(t, "0,30 */20 9-11 1,15,L Feb Mon-Fri 2033-2034,2099-2100")
	for place, it := range []struct{ told, wanted []int }{
		{schedule.Seconds(), []int{0, 30}}, {schedule.Minutes(), []int{0, 20, 40}},
		{schedule.Hours(), []int{9, 10, 11}}, {schedule.DaysOfMonth(), []int{1, 15}},
		{schedule.Months(), []int{2}}, {schedule.DaysOfWeek(), []int{2, 3, 4, 5, 6}},
		{schedule.Years(), []int{2033, 2034, 2099, 2100}},
	} {
		if !reflect.DeepEqual(it.told, it.wanted) {
			t.Errorf("set %d is %v", place, it.told)
		}
	}
	if !schedule.LastDay() || parsed(t, "@daily").LastDay() {
		t.Error("the last day is told otherwise")
	}
	if years := parsed(t, "@daily").Years(); len(years) != 131 || years[0] != 1970 || years[130] != 2100 {
		t.Errorf("the years are %v", years)
	}
}

func TestTheTextIsKept(t *testing.T) {
	nightly, same := parsed(t, "@daily"), parsed(t, "0 0 0 * * ?")
	crontab, err := cron.ParseCrontab("0 0 13 * fri")
	check(t, err)
	if nightly.String() != "@daily" || crontab.String() != "0 0 13 * fri" ||
		nightly.IsCrontab() || !crontab.IsCrontab() {
		t.Error("the text is another one")
	}
	if told := crontab.Canonical(); !reflect.DeepEqual(told, []string{"0 0 0 13 * * *", "0 0 0 * * 6 *"}) {
		t.Errorf("the canonical texts are %q", told)
	}
	never, err := cron.ParseCrontab("0 22-2 * * *")
	check(t, err)
	if told := never.Canonical(); len(told) != 0 {
		t.Errorf("what never fires is %q", told)
	}
	if !nightly.Equal(same) || nightly.Equal(crontab) || nightly.Equal(same.Under(cron.Once)) {
		t.Error("what is equal is told otherwise")
	}
	if nightly.ClockChanges() != cron.AsShown || nightly.Under(cron.Once).ClockChanges() != cron.Once {
		t.Error("the rule is another one")
	}
}

func TestPartsOfASecond(t *testing.T) {
	schedule, nine := parsed(t, "* * * * * *"), utc(2024, 1, 1, 9)
	half := nine.Add(time.Second / 2)
	for place, it := range []struct {
		told   func(time.Time) (cron.Fire, error)
		moment time.Time
		wanted time.Time
	}{
		{schedule.After, half, nine.Add(time.Second)}, {schedule.By, half, nine}, {schedule.By, nine, nine},
		{schedule.By, nine.Add(-1), nine.Add(-time.Second)}, {schedule.After, utc(1970).Add(-1), utc(1970)},
	} {
		if fire, err := it.told(it.moment); err != nil || !fire.Moment.Equal(it.wanted) {
			t.Errorf("call %d: %v, %v", place, fire, err)
		}
	}
	if fires, err := schedule.Between(half, half.Add(time.Second)); err != nil || len(fires) != 1 {
		t.Errorf("%v, %v", fires, err)
	}
	for moment, wanted := range map[time.Time]bool{nine: true, half: false, utc(1969): false, utc(9999): false} {
		if told, err := schedule.At(moment); err != nil || told != wanted {
			t.Errorf("at %v: %v, %v", moment, told, err)
		}
	}
}

func TestTheEnds(t *testing.T) {
	schedule := parsed(t, "0 0 0 1 1 * 1970,2100")
	least, greatest := time.Unix(-1<<62, 0).UTC(), time.Unix(1<<62, 0).UTC()
	for _, changes := range []cron.ClockChanges{cron.AsShown, cron.Once} {
		both, err := schedule.Under(changes).Between(least, greatest)
		if err != nil || texts(both) != "1970-01-01 00:00:00 +00:00, 2100-01-01 00:00:00 +00:00" {
			t.Errorf("%v, %v", both, err)
		}
		for place, none := range []func() (cron.Fire, error){
			func() (cron.Fire, error) { return schedule.Under(changes).After(utc(2100)) },
			func() (cron.Fire, error) { return schedule.Under(changes).Past(both[1]) },
			func() (cron.Fire, error) { return schedule.Under(changes).By(utc(1970).Add(-1)) },
			func() (cron.Fire, error) { return new(cron.Schedule).Under(changes).After(utc(1970)) },
		} {
			if fire, err := none(); err != cron.ErrNoFire {
				t.Errorf("call %d: %v, %v", place, fire, err)
			}
		}
	}
}

func TestManyPages(t *testing.T) {
	start, end := utc(2024, 2, 28, 22), utc(2024, 2, 29, 4)
	for _, changes := range []cron.ClockChanges{cron.AsShown, cron.Once} {
		fires, err := parsed(t, "* * * * * *").Under(changes).Between(start, end)
		if err != nil || len(fires) != 6*3600 {
			t.Fatalf("%d fires, %v", len(fires), err)
		}
		for place, fire := range fires {
			wanted := start.Add(time.Duration(place+1) * time.Second)
			if !fire.Moment.Equal(wanted) || !fire.Nominal.Equal(wanted) {
				t.Fatalf("%v, and not %v", fire, wanted)
			}
		}
	}
}

func TestPagesOfFiresThatShareAMoment(t *testing.T) {
	chicago := load(t, "America/Chicago")
	at := func(hour int) time.Time { return time.Date(2022, 3, 13, hour, 0, 0, 0, chicago) }
	fires, err := parsed(t, "* * * * * *").Under(cron.Once).Between(at(1), at(4))
	if err != nil || len(fires) != 3*3600 {
		t.Fatalf("%d fires, %v", len(fires), err)
	}
	for place, fire := range fires {
		nominal := utc(2022, 3, 13, 1, 0, place+1)
		moment := at(1).Add(time.Duration(place+1) * time.Second)
		switch hour := nominal.Hour(); {
		case hour == 2: // the clock passes over it
			moment = at(3)
		case hour > 2:
			moment = moment.Add(-time.Hour)
		}
		if !fire.Nominal.Equal(nominal) || !fire.Moment.Equal(moment) {
			t.Fatalf("%v, and not %v for %v", fire, moment, nominal)
		}
	}
}

func TestRefusals(t *testing.T) {
	for text, read := range map[string]func(string) (*cron.Schedule, error){
		"": cron.Parse, "\xff": cron.Parse, "30 9 * * 1": cron.Parse,
		"@reboot": cron.ParseCrontab, "0 9 * * \xff": cron.ParseCrontab, "0\n9 * * *": cron.ParseCrontab,
	} {
		var refusal *cron.TextError
		if _, err := read(text); !errors.As(err, &refusal) || refusal.Text != text || refusal.Message == "" {
			t.Errorf("%q: %v", text, err)
		}
	}
	if _, err := cron.Parse("30 9 * * 1"); !strings.HasSuffix(err.Error(), "which ParseCrontab reads.") {
		t.Error(err)
	}
	schedule, noon := parsed(t, "@daily"), utc(2022, 3, 13, 12)
	for _, fire := range []cron.Fire{
		{}, {noon, noon.Add(time.Second)}, {noon, noon.Add(-time.Hour)},
		{noon, noon.Add(-time.Second / 2)}, {noon, noon.AddDate(0, 0, -9)},
	} {
		if _, err := schedule.Past(fire); err != cron.ErrNotAFire {
			t.Errorf("%v, %v: %v", fire.Moment, fire.Nominal, err)
		}
		if _, err := schedule.Since(fire, noon); err != cron.ErrNotAFire {
			t.Errorf("%v, %v: %v", fire.Moment, fire.Nominal, err)
		}
	}
	skipped := cron.Fire{Moment: noon, Nominal: noon.Add(-time.Hour)}
	if _, err := schedule.Under(cron.Once).Past(skipped); err != nil {
		t.Error(err)
	}
}

func TestAFireGoesOnAfterItWasNoted(t *testing.T) {
	chicago := load(t, "America/Chicago")
	schedule := parsed(t, "0 */15 2 * * *").Under(cron.Once)
	fires := run(t, schedule, time.Date(2022, 3, 13, 0, 0, 0, 0, chicago), 6)
	for place, fire := range fires[:5] {
		noted, err := time.Parse(time.RFC3339, fire.Moment.Format(time.RFC3339))
		check(t, err)
		next, err := schedule.Past(cron.Fire{Moment: noted.In(chicago), Nominal: fire.Nominal})
		if err != nil || next.String() != fires[place+1].String() {
			t.Errorf("%v past %v, %v", next, fire, err)
		}
	}
}

func TestManyGoroutines(t *testing.T) {
	schedule := parsed(t, "0 */20 * * * *")
	names := []string{"America/Chicago", "Europe/London", "Australia/Lord_Howe", "UTC"}
	told := make([]string, 32)
	var all sync.WaitGroup
	for place := range told {
		location := load(t, names[place%len(names)])
		all.Add(1)
		go func(place int) {
			defer all.Done()
			fires, err := schedule.Between(time.Date(2022, 1, 1, 0, 0, 0, 0, location), utc(2023))
			told[place] = fmt.Sprint(len(fires), fires[0], fires[len(fires)-1], err)
		}(place)
	}
	all.Wait()
	for place := range told[4:] {
		if told[place] != told[place+4] {
			t.Errorf("%s, and %s", told[place], told[place+4])
		}
	}
}
