// Proves a published log from its files alone, by Go's packages sumdb/tlog and sumdb/note.
//
//	FOLDER VERIFIER [OLD ..]    each entry of FOLDER is in the tree of its checkpoint, and OLD, each the note of an earlier
//	                            checkpoint, is of its first entries; both notes have to bear a signature of VERIFIER
//
// Prints `proved SIZE ROOT`, and `follows SIZE` for each OLD. Usage: tests/users/published.py builds and runs it.
package main

import (
	"encoding/base64"
	"encoding/binary"
	"errors"
	"fmt"
	"os"
	"path/filepath"
	"strconv"
	"strings"

	"peer/note"
	"peer/tlog"
)

const width = 256

func need(err error) {
	if err != nil {
		fmt.Fprintln(os.Stderr, err)
		os.Exit(1)
	}
}

// The files of a log: tlog compares each tile that it reads with the tree's hash.
type files string

func (f files) Height() int { return 8 }

func (f files) ReadTiles(tiles []tlog.Tile) ([][]byte, error) {
	read := make([][]byte, len(tiles))
	for i, tile := range tiles {
		var err error
		if read[i], err = os.ReadFile(f.path(tile)); err != nil {
			return nil, err
		}
	}
	return read, nil
}

func (f files) SaveTiles([]tlog.Tile, [][]byte) {}

// The heights of all tiles are 8, so it doesn't stand in their names.
func (f files) path(tile tlog.Tile) string {
	name := strings.TrimPrefix(tile.Path(), "tile/8/")
	return filepath.Join(string(f), "tile", strings.Replace(name, "data", "entries", 1))
}

// The entries of a bundle, which has to have as many.
func (f files) bundle(number int64, count int) ([][]byte, error) {
	left, err := os.ReadFile(f.path(tlog.Tile{H: 8, L: -1, N: number, W: count}))
	if err != nil {
		return nil, err
	}
	var entries [][]byte
	for len(left) >= 2 && len(left) >= 2+int(binary.BigEndian.Uint16(left)) {
		end := 2 + int(binary.BigEndian.Uint16(left))
		entries = append(entries, left[2:end])
		left = left[end:]
	}
	if len(left) != 0 || len(entries) != count {
		return nil, fmt.Errorf("bundle %d has %d entries and %d bytes more", number, len(entries), len(left))
	}
	return entries, nil
}

// The tree of a checkpoint: its origin is the name of the key.
func checkpoint(path string, verifier note.Verifier) (tlog.Tree, error) {
	text, err := os.ReadFile(path)
	if err != nil {
		return tlog.Tree{}, err
	}
	opened, err := note.Open(text, note.VerifierList(verifier))
	if err != nil {
		return tlog.Tree{}, err
	}
	lines := strings.Split(opened.Text, "\n")
	if len(lines) != 4 || lines[0] != verifier.Name() || lines[3] != "" {
		return tlog.Tree{}, errors.New("no checkpoint of " + verifier.Name())
	}
	size, err := strconv.ParseInt(lines[1], 10, 64)
	if err != nil {
		return tlog.Tree{}, err
	}
	root, err := base64.StdEncoding.DecodeString(lines[2])
	if err != nil || len(root) != tlog.HashSize {
		return tlog.Tree{}, errors.New("no root")
	}
	tree := tlog.Tree{N: size}
	copy(tree.Hash[:], root)
	return tree, nil
}

func proveEntries(folder files, tree tlog.Tree) error {
	hashes := tlog.TileHashReader(tree, folder)
	for begin := int64(0); begin < tree.N; begin += width {
		count := tree.N - begin
		if count > width {
			count = width
		}
		entries, err := folder.bundle(begin/width, int(count))
		if err != nil {
			return err
		}
		for at, entry := range entries {
			index := begin + int64(at)
			proof, err := tlog.ProveRecord(tree.N, index, hashes)
			if err != nil {
				return err
			}
			if err := tlog.CheckRecord(proof, tree.N, tree.Hash, index, tlog.RecordHash(entry)); err != nil {
				return fmt.Errorf("entry %d: %w", index, err)
			}
		}
	}
	return nil
}

func proveOld(folder files, tree, old tlog.Tree) error {
	proof, err := tlog.ProveTree(tree.N, old.N, tlog.TileHashReader(tree, folder))
	if err != nil {
		return err
	}
	return tlog.CheckTree(proof, tree.N, tree.Hash, old.N, old.Hash)
}

func main() {
	if len(os.Args) < 3 {
		need(errors.New("FOLDER VERIFIER [OLD ..]"))
	}
	folder := files(os.Args[1])
	verifier, err := note.NewVerifier(os.Args[2])
	need(err)
	tree, err := checkpoint(filepath.Join(os.Args[1], "checkpoint"), verifier)
	need(err)
	need(proveEntries(folder, tree))
	fmt.Printf("proved %d %x\n", tree.N, tree.Hash[:])
	for _, path := range os.Args[3:] {
		old, err := checkpoint(path, verifier)
		need(err)
		need(proveOld(folder, tree, old))
		fmt.Println("follows", old.N)
	}
}
