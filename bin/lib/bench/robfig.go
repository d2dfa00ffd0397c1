// What bin/bench measures beside agenda: the same answers by robfig/cron, the scheduler library of Go.
//
// robfig plan CRONTAB SECONDS prints each start of the crontab's jobs in so many seconds from 2024-01-01, as agenda prints it.
// robfig next CRONTAB COUNT   finds so many starts of the crontab's first job, one after the other, and prints the last one.
//
// Each line of the crontab is five fields and a command of one word.
package main

import (
	"bufio"
	"container/heap"
	"fmt"
	"os"
	"strconv"
	"strings"
	"time"

	"github.com/robfig/cron"
)

type job struct {
	schedule cron.Schedule
	line     int
	command  string
	next     time.Time
}

// jobs is a heap of jobs: by the next start, then by the line.
type jobs []*job

func (queue jobs) Len() int      { return len(queue) }
func (queue jobs) Swap(i, j int) { queue[i], queue[j] = queue[j], queue[i] }
func (queue jobs) Less(i, j int) bool {
	if queue[i].next.Equal(queue[j].next) {
		return queue[i].line < queue[j].line
	}
	return queue[i].next.Before(queue[j].next)
}
func (queue *jobs) Push(added any) { *queue = append(*queue, added.(*job)) }
func (queue *jobs) Pop() any {
	last := (*queue)[len(*queue)-1]
	*queue = (*queue)[:len(*queue)-1]
	return last
}

func stop(err error) {
	if err != nil {
		fmt.Fprintln(os.Stderr, "robfig:", err)
		os.Exit(1)
	}
}

func readJobs(path string) jobs {
	file, err := os.Open(path)
	stop(err)
	defer file.Close()
	var read jobs
	lines := bufio.NewScanner(file)
	for line := 1; lines.Scan(); line++ {
		fields := strings.Fields(lines.Text())
		schedule, err := cron.ParseStandard(strings.Join(fields[:5], " "))
		stop(err)
		read = append(read, &job{schedule: schedule, line: line, command: fields[5]})
	}
	return read
}

// plan prints the starts from since on that are before the end.
func plan(read jobs, since, end time.Time) {
	out := bufio.NewWriterSize(os.Stdout, 1<<16)
	for _, each := range read {
		each.next = each.schedule.Next(since.Add(-time.Second))
	}
	heap.Init(&read)
	text := make([]byte, 0, 64)
	for len(read) > 0 && read[0].next.Before(end) {
		first := read[0]
		text = first.next.AppendFormat(text[:0], time.RFC3339)
		text = append(text, "\tcron:"...)
		text = strconv.AppendInt(text, int64(first.line), 10)
		text = append(text, '\t')
		text = append(text, first.command...)
		text = append(text, '\n')
		_, err := out.Write(text)
		stop(err)
		first.next = first.schedule.Next(first.next)
		heap.Fix(&read, 0)
	}
	stop(out.Flush())
}

// next prints the start of the job that is the count-th after the time.
func next(found *job, after time.Time, count int) {
	for ; count > 0; count-- {
		after = found.schedule.Next(after)
	}
	fmt.Println(after.Format(time.RFC3339))
}

func main() {
	since := time.Date(2024, 1, 1, 0, 0, 0, 0, time.UTC)
	if len(os.Args) != 4 {
		stop(fmt.Errorf("usage: robfig plan|next CRONTAB NUMBER"))
	}
	number, err := strconv.Atoi(os.Args[3])
	stop(err)
	read := readJobs(os.Args[2])
	switch os.Args[1] {
	case "plan":
		plan(read, since, since.Add(time.Duration(number)*time.Second))
	case "next":
		next(read[0], since, number)
	default:
		stop(fmt.Errorf("no such command: %s", os.Args[1]))
	}
}
