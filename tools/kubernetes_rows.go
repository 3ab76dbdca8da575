// Reads texts, one a line, and writes what robfig/cron 3.0.1 (ParseStandard) reads each as:
//
//	BAD        it is refused
//	EVERY      it is @every with a duration
//	OK B .. F  the sets of its minutes, hours, days, months and days of the week in hexadecimal
//	           digits, where bit i is number i; whether its third and its fifth field have a
//	           star; and its first five fires in UTC after 2024-01-15T00:00:00Z
//
// In texts, signs stand for line feeds, carriage returns and tabs. tools/kubernetes_rows.py runs it:
//
//	GO111MODULE=off GOPATH=/usr/share/gocode go run kubernetes_rows.go < TEXTS
package main

import (
	"bufio"
	"fmt"
	"os"
	"strings"
	"time"

	"github.com/robfig/cron"
)

const star = 1 << 63

func answer(text string) (told string) {
	// ParseStandard panics at a zone without a space behind it.
	defer func() {
		if recover() != nil {
			told = "BAD"
		}
	}()
	read, err := cron.ParseStandard(text)
	// A CronJob refuses each schedule with TZ in it.
	if err != nil || strings.Contains(text, "TZ") {
		return "BAD"
	}
	spec, ok := read.(*cron.SpecSchedule)
	if !ok {
		return "EVERY"
	}
	told = fmt.Sprintf("OK %x %x %x %x %x %d %d", spec.Minute&^star, spec.Hour&^star, spec.Dom&^star, spec.Month&^star, spec.Dow&^star, spec.Dom>>63, spec.Dow>>63)
	at := time.Date(2024, 1, 15, 0, 0, 0, 0, time.UTC)
	for fires := 0; fires < 5; fires++ {
		at = spec.Next(at)
		if at.IsZero() {
			break
		}
		told += " " + at.UTC().Format("2006-01-02T15:04:05Z")
	}
	return told
}

func main() {
	signs := strings.NewReplacer("␊", "\n", "␍", "\r", "␉", "\t")
	lines := bufio.NewScanner(os.Stdin)
	for lines.Scan() {
		fmt.Println(answer(signs.Replace(lines.Text())))
	}
}
