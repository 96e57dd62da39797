// The loop of robfig/cron on the jobs that cronbench gives a scheduler, to be measured beside it:
//
//	apt-get install golang-go golang-github-robfig-cron-dev
//	GO111MODULE=off GOPATH=/usr/share/gocode go build -o robfig_loop tools/robfig_loop.go
//	./robfig_loop [ROUNDS [JOBS]]
//
// Standard output has the answers' sum of each group, by the names and in the order of crates/cronbench/stdout; standard error has the
// nanoseconds of processor time of one call, in the fastest round, and the bytes of the heap that a job takes in robfig's own Cron. With
// JOBS each group has so many jobs, in place of 1,000 and of 100,000.
//
// The jobs are read by robfig's parser and searched by its Schedule.Next. What its loop (Cron.run) does between two of its waits is done
// here as it stands there: at each turn the entries are sorted, those that are due are searched again from the wake-up, a new one is
// searched and appended, and a removal makes a new list. Left out are the timer, the channels, the log and the goroutines, which would
// only add to it; and its garbage is collected by other threads, which aren't measured.
package main

import (
	"fmt"
	"os"
	"runtime"
	"sort"
	"strconv"
	"syscall"
	"time"
	"unsafe"

	"github.com/robfig/cron"
)

// As in crates/cronbench: how many calls are made, the wake-ups at which 4 in 100 jobs run, the second at which all jobs are added, the
// seconds of a week, and the minutes between two jobs that come.
const (
	calls        = 64
	wakeUps      = 25
	start        = 1717372799
	week         = 604800
	minutesApart = 22
)

var parser = cron.NewParser(cron.SecondOptional | cron.Minute | cron.Hour | cron.Dom | cron.Month | cron.Dow)

// An entry of its list, as its Cron has them.
type entry struct {
	id       int
	schedule cron.Schedule
	next     time.Time
}

// Its order: by the next run, and after all others those that have none.
type byTime []*entry

func (s byTime) Len() int      { return len(s) }
func (s byTime) Swap(i, j int) { s[i], s[j] = s[j], s[i] }
func (s byTime) Less(i, j int) bool {
	if s[i].next.IsZero() {
		return false
	}
	if s[j].next.IsZero() {
		return true
	}
	return s[i].next.Before(s[j].next)
}

type loop struct {
	entries []*entry
	zone    *time.Location
}

// The begin of a turn: the entries are sorted, and the timer would be set to the first of them.
func (l *loop) wakeUp() time.Time {
	sort.Sort(byTime(l.entries))
	return l.entries[0].next
}

// What is due is searched again; gives the sum of the ids, each times its second.
func (l *loop) wake(now time.Time) int64 {
	now = now.In(l.zone)
	var sum int64
	for _, e := range l.entries {
		if e.next.After(now) || e.next.IsZero() {
			break
		}
		sum += e.next.Unix() * int64(e.id)
		e.next = e.schedule.Next(now)
	}
	return sum
}

func (l *loop) add(id int, schedule cron.Schedule, now time.Time) {
	l.entries = append(l.entries, &entry{id: id, schedule: schedule, next: schedule.Next(now)})
}

func (l *loop) remove(id int) {
	var entries []*entry
	for _, e := range l.entries {
		if e.id != id {
			entries = append(entries, e)
		}
	}
	l.entries = entries
}

func read(text string) cron.Schedule {
	schedule, err := parser.Parse(text)
	if err != nil {
		panic(err)
	}
	return schedule
}

func hourly(job int) string { return fmt.Sprintf("%d * * * *", job%wakeUps*2) }

func weekly(second int) string {
	return fmt.Sprintf("%d %d %d * * %d", second%60, second/60%60, second/3600%24, (second/86400+1)%7)
}

func daily(job int) string {
	return fmt.Sprintf("%d %d * * *", job*minutesApart%60, job*minutesApart/60)
}

func loopOf(kind string, jobs int, zone *time.Location) *loop {
	l := &loop{zone: zone}
	now := time.Unix(start, 0).In(zone)
	for job := 0; job < jobs; job++ {
		text := weekly(job * (week / jobs))
		if kind == "4 in 100 run" {
			text = hourly(job)
		}
		l.add(job, read(text), now)
	}
	l.wakeUp()
	return l
}

// The processor time of this thread, in nanoseconds.
func clock() int64 {
	var t syscall.Timespec
	const threadTime = 3
	if _, _, err := syscall.Syscall(syscall.SYS_CLOCK_GETTIME, threadTime, uintptr(unsafe.Pointer(&t)), 0); err != 0 {
		panic(err)
	}
	return t.Nano()
}

type answers struct {
	count int
	sum   uint64
}

func (a *answers) add(answer int64) {
	a.count++
	a.sum = a.sum*1000003 + uint64(answer)
}

// Makes the calls of a group, and gives their answers and the nanoseconds that they took.
func pass(kind string, jobs int, zone *time.Location) (answers, int64) {
	l := loopOf(kind, jobs, zone)
	now := time.Unix(start, 0).In(zone)
	var coming []cron.Schedule
	for job := 0; job < calls; job++ {
		coming = append(coming, read(daily(job)))
	}
	runtime.GC()
	var a answers
	begin := clock()
	switch kind {
	case "4 in 100 run":
		for i := 0; i < wakeUps; i++ {
			a.add(l.wake(l.wakeUp()))
		}
	case "one runs":
		for i := 0; i < calls; i++ {
			a.add(l.wake(l.wakeUp()))
		}
	case "comes":
		for job, schedule := range coming {
			l.add(jobs+job, schedule, now)
			a.add(l.wakeUp().Unix())
		}
	case "goes":
		for job := 0; job < calls; job++ {
			l.remove(job * (jobs / calls))
			a.add(l.wakeUp().Unix())
		}
	}
	return a, clock() - begin
}

// The bytes that a job takes in robfig's Cron, of so many of which 4 in 100 run at a time.
func bytesOfAJob(jobs int) uint64 {
	before := heap()
	c := cron.New(cron.WithParser(parser), cron.WithLocation(time.UTC))
	for job := 0; job < jobs; job++ {
		if _, err := c.AddFunc(hourly(job), func() {}); err != nil {
			panic(err)
		}
	}
	taken := heap() - before
	runtime.KeepAlive(c)
	return taken / uint64(jobs)
}

func heap() uint64 {
	var stats runtime.MemStats
	runtime.GC()
	runtime.ReadMemStats(&stats)
	return stats.HeapAlloc
}

func thousands(n int) string {
	if n < 1000 {
		return strconv.Itoa(n)
	}
	return fmt.Sprintf("%s,%03d", thousands(n/1000), n%1000)
}

func nameOf(kind string, jobs int, place string) string {
	switch kind {
	case "comes":
		return fmt.Sprintf("a job that comes to %s, %s", thousands(jobs), place)
	case "goes":
		return fmt.Sprintf("a job that goes from %s, %s", thousands(jobs), place)
	}
	return fmt.Sprintf("wake-up of %s jobs, %s, %s", thousands(jobs), kind, place)
}

func measure(kind string, jobs int, place string, zone *time.Location, rounds int) {
	found, least := pass(kind, jobs, zone)
	for i := 1; i < rounds; i++ {
		again, took := pass(kind, jobs, zone)
		if again != found {
			panic("other answers in another round")
		}
		if took < least {
			least = took
		}
	}
	name := nameOf(kind, jobs, place)
	fmt.Printf("%s: %d answers, sum %d\n", name, found.count, found.sum)
	fmt.Fprintf(os.Stderr, "%s: %d ns\n", name, least/int64(found.count))
}

func number(place, otherwise int) int {
	if len(os.Args) <= place {
		return otherwise
	}
	n, err := strconv.Atoi(os.Args[place])
	if err != nil || n < 1 {
		fmt.Fprintln(os.Stderr, "usage: robfig_loop [ROUNDS [JOBS]]")
		os.Exit(2)
	}
	return n
}

func main() {
	runtime.LockOSThread()
	rounds, sizes := number(1, 1), []int{1000, 100000}
	if len(os.Args) > 2 {
		sizes = []int{number(2, 0)}
	}
	for _, jobs := range sizes {
		fmt.Fprintf(os.Stderr, "%s jobs: %d bytes a job\n", thousands(jobs), bytesOfAJob(jobs))
	}
	paris, err := time.LoadLocation("Europe/Paris")
	if err != nil {
		panic(err)
	}
	for _, place := range []string{"UTC", "Paris"} {
		zone := time.UTC
		if place == "Paris" {
			zone = paris
		}
		for _, jobs := range sizes {
			for _, kind := range []string{"4 in 100 run", "one runs", "comes", "goes"} {
				measure(kind, jobs, place, zone, rounds)
			}
		}
	}
}
