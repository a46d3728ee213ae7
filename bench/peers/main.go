// A driver over Go's time. README.md has the command line.
package main

import (
	"fmt"
	"io"
	"os"
	"runtime"
	"runtime/debug"
	"strconv"
	"strings"
	"time"
)

type local struct {
	year                      int
	month                     time.Month
	day, hour, minute, second int
}

// refuse says why the library has no such zone or call, and ends.
func refuse(why string) {
	fmt.Println(why)
	os.Exit(3)
}

func zoneOf(option, argument string) *time.Location {
	switch option {
	case "-o":
		offset, _ := strconv.Atoi(argument)
		return time.FixedZone("-", offset)
	case "-f":
		zone, err := time.LoadLocationFromTZData(argument, read(argument))
		if err != nil || strings.Contains(argument, "/right/") {
			refuse("no leap seconds")
		}
		return zone
	}
	refuse("no TZ strings")
	return nil
}

func read(path string) []byte {
	data, err := os.ReadFile(path)
	if err != nil {
		panic(err)
	}
	return data
}

// -- query lines, read and printed by hand

func number(input []byte, at int) (int, int) {
	below := input[at] == '-'
	if below {
		at++
	}
	digits := 0
	for at < len(input) && input[at] >= '0' && input[at] <= '9' {
		digits = 10*digits + int(input[at]-'0')
		at++
	}
	if below {
		digits = -digits
	}
	return digits, at + 1
}

// pairs has the two digits of each number below 100.
const pairs = "00010203040506070809101112131415161718192021222324252627282930313233343536373839404142434445464748495051525354555657585960616263646566676869707172737475767778798081828384858687888990919293949596979899"

func two(out []byte, value int) []byte {
	return append(out, pairs[2*value], pairs[2*value+1])
}

func print(out []byte, t time.Time) []byte {
	year, month, day := t.Date()
	hour, minute, second := t.Clock()
	name, offset := t.Zone()
	out = two(two(out, year/100), year%100)
	out = two(append(out, '-'), int(month))
	out = two(append(out, '-'), day)
	out = two(append(out, 'T'), hour)
	out = two(append(out, ':'), minute)
	out = two(append(out, ':'), second)
	nanoseconds := t.Nanosecond()
	out = append(out, '.', byte('0'+nanoseconds/100000000))
	out = two(two(out, nanoseconds/1000000%100), nanoseconds/10000%100)
	out = two(two(out, nanoseconds/100%100), nanoseconds%100)
	if offset == 0 {
		return append(append(out, 'Z', ' '), name...)
	}
	if offset < 0 {
		out = append(out, '-')
		offset = -offset
	} else {
		out = append(out, '+')
	}
	out = two(append(two(out, offset/3600), ':'), offset/60%60)
	if offset%60 != 0 {
		out = two(append(out, ':'), offset%60)
	}
	return append(append(out, ' '), name...)
}

func answerLines(zone *time.Location) {
	input, _ := io.ReadAll(os.Stdin)
	out := make([]byte, 0, 4*len(input)+1)
	for at := 0; at < len(input); {
		kind := input[at]
		at += 2
		if kind == 'T' {
			var instant, nanoseconds int
			instant, at = number(input, at)
			nanoseconds, at = number(input, at)
			out = append(print(out, time.Unix(int64(instant), int64(nanoseconds)).In(zone)), '\n')
			continue
		}
		var parts [7]int
		for n := range parts {
			parts[n], at = number(input, at)
		}
		out = append(out, "F 1\nN "...)
		found := time.Date(parts[0], time.Month(parts[1]), parts[2], parts[3], parts[4], parts[5], parts[6], zone)
		out = append(print(out, found), '\n')
	}
	os.Stdout.Write(out)
}

// -- calls

func localOf(word int64) local {
	part := func(place int64) int { return int(word / place % 100) }
	return local{int(word / 10000000000), time.Month(part(100000000)), part(1000000), part(10000), part(100), part(1)}
}

func sumOf(year int, month time.Month, day, hour, minute, second int) uint64 {
	return uint64(year + int(month) + day + hour + minute + second)
}

// run makes the call for each of these words, this many times in all, and prints the sum of what it returned; or, for no number, each answer.
func run(name, times string, words int, sum func(first, last int) uint64) {
	if times == "each" {
		for n := 0; n < words; n++ {
			fmt.Println(sum(n, n+1))
		}
		return
	}
	total := uint64(0)
	left, _ := strconv.Atoi(times)
	for ; left > words; left -= words {
		total += sum(0, words)
	}
	fmt.Println(name, total+sum(0, left))
}

func makeCalls(option, argument, call, times string) {
	input, _ := io.ReadAll(os.Stdin)
	words := []int64{}
	for at := 0; at < len(input); {
		var word int
		word, at = number(input, at)
		words = append(words, int64(word))
	}
	locals := make([]local, len(words))
	for n, word := range words {
		locals[n] = localOf(word)
	}
	// Each call has its loop written out, so that none is made through a function value.
	zone := zoneOf(option, argument)
	switch call {
	case "instant":
		run(call, times, len(words), func(first, last int) (total uint64) {
			for _, word := range words[first:last] {
				total += uint64(word)
			}
			return
		})
	case "local":
		run(call, times, len(words), func(first, last int) (total uint64) {
			for n := range locals[first:last] {
				l := &locals[first+n]
				total += sumOf(l.year, l.month, l.day, l.hour, l.minute, l.second)
			}
			return
		})
	case "find_local_time_type":
		run(call, times, len(words), func(first, last int) (total uint64) {
			for _, word := range words[first:last] {
				_, offset := time.Unix(word, 0).In(zone).Zone()
				total += uint64(offset)
			}
			return
		})
	case "from_timespec":
		run(call, times, len(words), func(first, last int) (total uint64) {
			for _, word := range words[first:last] {
				t := time.Unix(word, 7).In(zone)
				year, month, day := t.Date()
				hour, minute, second := t.Clock()
				_, offset := t.Zone()
				total += sumOf(year, month, day, hour, minute, second) + uint64(offset)
			}
			return
		})
	case "find", "find_n":
		run(call, times, len(words), func(first, last int) (total uint64) {
			for n := range locals[first:last] {
				l := &locals[first+n]
				total += uint64(time.Date(l.year, l.month, l.day, l.hour, l.minute, l.second, 7, zone).Unix())
			}
			return
		})
	case "following":
		run(call, times, len(words), func(first, last int) (total uint64) {
			for _, word := range words[first:last] {
				_, end := time.Unix(word, 0).In(zone).ZoneBounds()
				total += uint64(end.Unix())
			}
			return
		})
	case "display":
		held := make([]time.Time, len(words))
		for n, word := range words {
			held[n] = time.Unix(word, 7).In(zone)
		}
		run(call, times, len(words), func(first, last int) (total uint64) {
			for _, t := range held[first:last] {
				total += uint64(len(t.Format("2006-01-02T15:04:05.000000000-07:00")))
			}
			return
		})
	case "utc_from_timespec":
		run(call, times, len(words), func(first, last int) (total uint64) {
			for _, word := range words[first:last] {
				t := time.Unix(word, 7).UTC()
				year, month, day := t.Date()
				hour, minute, second := t.Clock()
				total += sumOf(year, month, day, hour, minute, second)
			}
			return
		})
	case "utc_new":
		run(call, times, len(words), func(first, last int) (total uint64) {
			for n := range locals[first:last] {
				l := &locals[first+n]
				total += uint64(time.Date(l.year, l.month, l.day, l.hour, l.minute, l.second, 7, time.UTC).Unix())
			}
			return
		})
	case "utc_add":
		held := make([]time.Time, len(words))
		for n, word := range words {
			held[n] = time.Unix(word, 7).UTC()
		}
		run(call, times, len(words), func(first, last int) (total uint64) {
			for n, t := range held[first:last] {
				total += uint64(t.Add(time.Duration(words[first+n]&0xfffff)*time.Second + 7).Unix())
			}
			return
		})
	case "from_tz_data":
		data := read(argument)
		run(call, times, len(words), func(first, last int) (total uint64) {
			for range words[first:last] {
				if zone, err := time.LoadLocationFromTZData("zone", data); err == nil && zone != nil {
					total++
				}
			}
			return
		})
	case "from_posix_tz", "parse_string":
		refuse("no TZ strings")
	default:
		refuse("no such call")
	}
}

func main() {
	runtime.GOMAXPROCS(1)
	debug.SetGCPercent(-1)
	arguments := os.Args[1:]
	switch len(arguments) {
	case 2:
		answerLines(zoneOf(arguments[0], arguments[1]))
	case 4:
		makeCalls(arguments[0], arguments[1], arguments[2], arguments[3])
	default:
		fmt.Fprintln(os.Stderr, "usage: PROGRAM OPTION ARGUMENT [CALL TIMES]")
		os.Exit(1)
	}
}
