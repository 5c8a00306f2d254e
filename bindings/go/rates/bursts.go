package main

import (
	"fmt"
	"log"
	"os"
	"runtime"
	"sort"
	"strconv"
	"sync"
	"syscall"
	"time"
)

// pause is how long a thread waits between two bursts. A burst begins where the clock is a multiple of a burst and a pause: so threads and processes
// begin together.
const pause = 20 * time.Millisecond

const calls = 16

// rusageThread is RUSAGE_THREAD of Linux.
const rusageThread = 1

// words are what the command was called with.
type words struct {
	threads   int
	length    time.Duration
	name      string
	burst     time.Duration
	remembers bool
}

func wordsOf(arguments []string) words {
	if len(arguments) != 5 && !(len(arguments) == 6 && arguments[5] == "remember") {
		log.Fatal("usage: rates THREADS SECONDS NAME BURST [remember]")
	}
	threads, err := strconv.Atoi(arguments[1])
	if err != nil {
		log.Fatal(err)
	}
	return words{threads, secondsOf(arguments[2]), arguments[3], secondsOf(arguments[4]), len(arguments) == 6}
}

func secondsOf(word string) time.Duration {
	seconds, err := strconv.ParseFloat(word, 64)
	if err != nil {
		log.Fatal(err)
	}
	return time.Duration(seconds * float64(time.Second))
}

// printRates prints how many calls a second so many threads made in a burst in which none of them was switched out or began late, the median of these
// bursts, and how many there were.
func printRates(w words, call func()) {
	runtime.GOMAXPROCS(w.threads)
	end := time.Now().Add(w.length)
	made := make([]map[int64]float64, w.threads)
	var workers sync.WaitGroup
	for i := range made {
		made[i] = map[int64]float64{}
		workers.Add(1)
		go func(rates map[int64]float64) {
			defer workers.Done()
			runtime.LockOSThread()
			judge(w.burst, end, rates, call)
		}(made[i])
	}
	workers.Wait()
	var rates []float64
	for n, rate := range made[0] {
		calm := 1
		for _, others := range made[1:] {
			if other, is := others[n]; is {
				rate += other
				calm++
			}
		}
		if calm == w.threads {
			rates = append(rates, rate)
		}
	}
	sort.Float64s(rates)
	median := 0.0
	if len(rates) > 0 {
		median = rates[len(rates)/2]
	}
	fmt.Printf("%.0f %d\n", median, len(rates))
}

// judge calls in bursts until this moment, and notes the calls a second of each in which the thread wasn't disturbed, by the number of the burst.
func judge(burst time.Duration, end time.Time, rates map[int64]float64, call func()) {
	period := burst + pause
	for n := time.Now().UnixNano()/int64(period) + 1; ; n++ {
		start := time.Unix(0, n*int64(period))
		if start.After(end) {
			return
		}
		time.Sleep(time.Until(start))
		if rate := rateOf(start, burst, call); rate > 0 {
			rates[n] = rate
		}
	}
}

// rateOf gives the calls a second of a burst that begins at this moment; 0 where the thread was disturbed.
func rateOf(start time.Time, burst time.Duration, call func()) float64 {
	made, before, began := 0, switchedOut(), time.Now()
	late := began.Sub(start) > burst/8
	for time.Since(start) < burst {
		for i := 0; i < calls; i++ {
			call()
		}
		made += calls
	}
	length := time.Since(began)
	if late || switchedOut() != before {
		return 0
	}
	return float64(made) / length.Seconds()
}

func switchedOut() int64 {
	var usage syscall.Rusage
	if err := syscall.Getrusage(rusageThread, &usage); err != nil {
		log.Fatal(err)
	}
	return usage.Nivcsw
}

func read(name string) []byte {
	octets, err := os.ReadFile(name)
	if err != nil {
		log.Fatal(err)
	}
	return octets
}
