// The command values reads lines of hex digits, each an item, and writes the canonical bytes of each value, or the refusal:
//
//	values [bytewise|length [BYTES]] < LINES
//
// BYTES is the byte limit, 2^30 without it.
package main

import (
	"bufio"
	"encoding/hex"
	"errors"
	"fmt"
	"io"
	"log"
	"os"
	"strconv"
	"strings"

	"naltvigo"
)

func main() {
	options := naltvigo.Options{Bytes: 1 << 30, Depth: naltvigo.MaxDepth}
	if len(os.Args) > 1 && os.Args[1] == "length" {
		options.Order = naltvigo.LengthFirst
	}
	if len(os.Args) > 2 {
		limit, err := strconv.ParseUint(os.Args[2], 10, 64)
		if err != nil {
			log.Fatal("usage: values [bytewise|length [BYTES]] < LINES")
		}
		options.Bytes = limit
	}
	in, out := bufio.NewReader(os.Stdin), bufio.NewWriter(os.Stdout)
	defer out.Flush()
	for {
		line, err := in.ReadString('\n')
		if err == io.EOF && line == "" {
			return
		}
		given, failed := hex.DecodeString(strings.TrimSpace(line))
		if failed != nil {
			log.Fatal(failed)
		}
		fmt.Fprintln(out, again(given, &options))
	}
}

// again decodes an item and encodes its value.
func again(given []byte, options *naltvigo.Options) string {
	value, err := naltvigo.Unmarshal(given, options)
	if err == nil {
		given, err = naltvigo.Marshal(value, options)
	}
	var refused *naltvigo.Refused
	if errors.As(err, &refused) {
		return fmt.Sprintf("refused %d %v at %d", uint32(refused.Reason), refused.Reason, refused.Offset)
	}
	if err != nil {
		log.Fatal(err)
	}
	return hex.EncodeToString(given)
}
