// Asks robfig/cron (ParseStandard). Questions and answers are those of ask_cron.c.
//
//	GO111MODULE=off GOPATH=/usr/share/gocode go build -o ask_robfig ask.go
package main

import (
	"bufio"
	"fmt"
	"os"
	"strconv"
	"strings"
	"time"

	"github.com/robfig/cron"
)

// A line of which the reader panics is refused too.
func read(line string) (schedule cron.Schedule, fault interface{}) {
	defer func() {
		if it := recover(); it != nil {
			fault = it
		}
	}()
	schedule, err := cron.ParseStandard(line)
	if err != nil {
		fault = err
	}
	return
}

func main() {
	questions := bufio.NewScanner(os.Stdin)
	for questions.Scan() {
		parts := strings.SplitN(questions.Text(), "\t", 2)
		after, _ := strconv.ParseInt(parts[0], 10, 64)
		schedule, fault := read(parts[1])
		if fault != nil {
			fmt.Println("refused")
		} else if start := schedule.Next(time.Unix(after, 0).In(time.Local)); start.IsZero() {
			fmt.Println("never")
		} else {
			fmt.Println(start.Unix())
		}
	}
}
