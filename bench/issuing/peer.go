// Appends entries to a log as sumdb/tlog keeps it: a file with each hash that StoredHashes gives, and one sync a batch. Prints for each
// size of a log and each batch a line ENTRIES BATCH SECONDS CLOCK SYNC, the median of some rounds: processor time of all, and the sync by
// the clock.
// Usage: go run . FOLDER ROUNDS ENTRIES ..
package main

import (
	"fmt"
	"os"
	"path/filepath"
	"peer/tlog"
	"sort"
	"strconv"
	"syscall"
	"time"
)

// The entries are as long as that of examples/www.cert.
var entry = make([]byte, 133)

// Every hash of a log, in a file.
type stored struct{ file *os.File }

func (s stored) ReadHashes(indexes []int64) ([]tlog.Hash, error) {
	read := make([]tlog.Hash, len(indexes))
	for i, index := range indexes {
		if _, err := s.file.ReadAt(read[i][:], index*tlog.HashSize); err != nil {
			return nil, err
		}
	}
	return read, nil
}

func need(err error) {
	if err != nil {
		fmt.Fprintln(os.Stderr, err)
		os.Exit(1)
	}
}

// A log of so many entries, whose hashes are held in memory while it is made.
type held []tlog.Hash

func (h held) ReadHashes(indexes []int64) ([]tlog.Hash, error) {
	read := make([]tlog.Hash, len(indexes))
	for i, index := range indexes {
		read[i] = h[index]
	}
	return read, nil
}

func made(path string, count int64) stored {
	var hashes held
	for number := int64(0); number < count; number++ {
		more, err := tlog.StoredHashes(number, entry, hashes)
		need(err)
		hashes = append(hashes, more...)
	}
	file, err := os.Create(path)
	need(err)
	bytes := make([]byte, 0, len(hashes)*tlog.HashSize)
	for _, hash := range hashes {
		bytes = append(bytes, hash[:]...)
	}
	_, err = file.Write(bytes)
	need(err)
	need(file.Sync())
	return stored{file}
}

func processor() float64 {
	var used syscall.Rusage
	need(syscall.Getrusage(syscall.RUSAGE_SELF, &used))
	return float64(used.Utime.Nano()+used.Stime.Nano()) / 1e9
}

// Appends a batch: processor seconds until it is synced, seconds by the clock, and those of the sync by the clock.
func (s stored) append(count *int64, batch int) (float64, float64, float64) {
	start, began := processor(), time.Now()
	for done := 0; done < batch; done++ {
		more, err := tlog.StoredHashes(*count, entry, s)
		need(err)
		at := tlog.StoredHashCount(*count) * tlog.HashSize
		for _, hash := range more {
			_, err = s.file.WriteAt(hash[:], at)
			need(err)
			at += tlog.HashSize
		}
		*count++
	}
	written := time.Now()
	need(s.file.Sync())
	return processor() - start, time.Since(began).Seconds(), time.Since(written).Seconds()
}

func median(of []float64) float64 {
	sort.Float64s(of)
	return of[len(of)/2]
}

func main() {
	rounds, err := strconv.Atoi(os.Args[2])
	need(err)
	for _, word := range os.Args[3:] {
		count, err := strconv.ParseInt(word, 10, 64)
		need(err)
		log := made(filepath.Join(os.Args[1], "hashes"), count)
		for _, batch := range []int{1, 10, 100, 700} {
			var all, clocks, syncs []float64
			for round := 0; round < rounds; round++ {
				one, clock, sync := log.append(&count, batch)
				all, clocks, syncs = append(all, one), append(clocks, clock), append(syncs, sync)
			}
			fmt.Printf("%s %d %.6f %.6f %.6f\n", word, batch, median(all), median(clocks), median(syncs))
		}
		need(log.file.Close())
	}
}
