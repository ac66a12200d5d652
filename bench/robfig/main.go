// Lists what a table of cron entries launches within 400 days, by robfig/cron, in the lines of a due list: bench/list.py
// builds it where Go and that library are. Of each line of the input the first five words are the fields, in UTC.
package main

import (
	"bufio"
	"fmt"
	"os"
	"strings"
	"time"

	"github.com/robfig/cron"
)

const (
	local = "2006-01-02T15:04"
	stamp = "20060102T1504Z"
)

func main() {
	from, _ := time.Parse(local, os.Args[1])
	until, _ := time.Parse(local, os.Args[2])
	out := bufio.NewWriter(os.Stdout)
	defer out.Flush()
	lines := bufio.NewScanner(os.Stdin)
	for job := 1; lines.Scan(); job++ {
		words := strings.SplitN(lines.Text(), " ", 6)
		schedule, err := cron.ParseStandard(strings.Join(words[:5], " "))
		if err != nil {
			fmt.Fprintln(os.Stderr, err)
			os.Exit(2)
		}
		var dues []time.Time
		// Next is later than what it is given, and zero where it finds none within five years.
		for at := schedule.Next(from.Add(-time.Second)); !at.IsZero() && at.Before(until); at = schedule.Next(at) {
			dues = append(dues, at)
		}
		fmt.Fprintf(out, "job bench:%d version 0 count %d\n", job, len(dues))
		for _, at := range dues {
			fmt.Fprintf(out, "due bench:%d@%s %s\n", job, at.Format(stamp), at.Format(local))
		}
	}
}
