// Prints lines WHAT NANOSECONDS COUNT, of the same work as the program beside it.
package main

import (
	"encoding/binary"
	"errors"
	"fmt"
	"os"
	"peer/tlog"
	"runtime"
	"syscall"
)

const leaves = 65536
const kept = 1 << 20

// The leaves of sixteen tiles.
const held = 4096

// Every hash of a log, in memory.
type stored []tlog.Hash

func (s stored) ReadHashes(indexes []int64) ([]tlog.Hash, error) {
	read := make([]tlog.Hash, len(indexes))
	for i, index := range indexes {
		read[i] = s[index]
	}
	return read, nil
}

// The tiles of a log, in memory: tlog compares each that it reads with the tree's hash.
type tiled map[tlog.Tile][]byte

func (t tiled) Height() int { return 8 }

func (t tiled) ReadTiles(tiles []tlog.Tile) ([][]byte, error) {
	read := make([][]byte, len(tiles))
	for i, tile := range tiles {
		if read[i] = t[tile]; read[i] == nil {
			return nil, errors.New("no tile " + tile.Path())
		}
	}
	return read, nil
}

func (t tiled) SaveTiles(tiles []tlog.Tile, data [][]byte) {}

func need(err error) {
	if err != nil {
		fmt.Fprintln(os.Stderr, err)
		os.Exit(1)
	}
}

func nanoseconds() int64 {
	var use syscall.Rusage
	need(syscall.Getrusage(1, &use)) // of this thread
	return use.Utime.Nano() + use.Stime.Nano()
}

func printed(what string, start int64, count int) {
	fmt.Println(what, nanoseconds()-start, count)
}

// Makes so many paths over the first size leaves, of leaves all over the first among.
func paths(what string, hashes tlog.HashReader, size, among int64, count int) {
	start := nanoseconds()
	for i := int64(0); i < int64(count); i++ {
		_, err := tlog.ProveRecord(size, i*300007%among, hashes)
		need(err)
	}
	printed(what, start, count)
}

func main() {
	runtime.LockOSThread()
	var all stored
	var first tlog.Hash
	start := nanoseconds()
	for index := int64(0); index < kept; index++ {
		data := binary.BigEndian.AppendUint64(nil, uint64(index))
		hashes, err := tlog.StoredHashes(index, data, all)
		need(err)
		if index == 0 {
			first = hashes[0]
		}
		all = append(all, hashes...)
	}
	printed("push", start, kept)
	whole, err := tlog.TreeHash(leaves, all)
	need(err)
	most, err := tlog.TreeHash(leaves-1, all)
	need(err)

	start = nanoseconds()
	joined := first
	for i := 0; i < 1000000; i++ {
		joined = tlog.NodeHash(joined, first)
	}
	printed("pair", start, 1000000)

	for _, size := range []int64{1 << 10, leaves, kept, kept - 1} {
		paths(fmt.Sprint("path-", size), all, size, size, 200000)
	}

	start = nanoseconds()
	for i := int64(0); i < 200000; i++ {
		_, err = tlog.ProveTree(leaves, leaves-1-i%20, all)
		need(err)
	}
	printed("consist", start, 200000)

	path, err := tlog.ProveRecord(leaves, 0, all)
	need(err)
	start = nanoseconds()
	for i := 0; i < 20000; i++ {
		need(tlog.CheckRecord(path, leaves, whole, 0, first))
	}
	printed("evaluate", start, 20000)

	proof, err := tlog.ProveTree(leaves, leaves-1, all)
	need(err)
	start = nanoseconds()
	for i := 0; i < 20000; i++ {
		need(tlog.CheckTree(proof, leaves, whole, leaves-1, most))
	}
	printed("check", start, 20000)

	start = nanoseconds()
	tiles := tiled{}
	made := tlog.NewTiles(8, 0, kept)
	for _, tile := range made {
		tiles[tile], err = tlog.ReadTileData(tile, all)
		need(err)
	}
	printed("tile", start, len(made))
	root, err := tlog.TreeHash(kept, all)
	need(err)
	through := tlog.TileHashReader(tlog.Tree{N: kept, Hash: root}, tiles)
	paths(fmt.Sprint("held-", kept), through, kept, held, 1000)
}
