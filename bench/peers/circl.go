// Cloudflare's circl, whose arithmetic is written for AVX2 by hand.
package main

import (
	"bufio"
	"crypto/rand"
	"encoding/binary"
	"encoding/hex"
	"fmt"
	"os"
	"strconv"
	"strings"
	"time"

	"github.com/cloudflare/circl/sign/mldsa/mldsa44"
	"github.com/cloudflare/circl/sign/mldsa/mldsa65"
	"github.com/cloudflare/circl/sign/mldsa/mldsa87"
)

// Calls are those of a set, over keys as bytes.
type Calls struct {
	keygen func() (public, private []byte)
	sign   func(private, message []byte) []byte
	verify func(public, message, signature []byte) bool
}

func check(err error) {
	if err != nil {
		fmt.Fprintln(os.Stderr, err)
		os.Exit(2)
	}
}

func calls(set string) Calls {
	switch set {
	case "44":
		return Calls{
			func() ([]byte, []byte) {
				pk, sk, err := mldsa44.GenerateKey(rand.Reader)
				check(err)
				return pk.Bytes(), sk.Bytes()
			},
			func(private, message []byte) []byte {
				var key mldsa44.PrivateKey
				check(key.UnmarshalBinary(private))
				signature := make([]byte, mldsa44.SignatureSize)
				check(mldsa44.SignTo(&key, message, nil, true, signature))
				return signature
			},
			func(public, message, signature []byte) bool {
				var key mldsa44.PublicKey
				check(key.UnmarshalBinary(public))
				return mldsa44.Verify(&key, message, nil, signature)
			},
		}
	case "65":
		return Calls{
			func() ([]byte, []byte) {
				pk, sk, err := mldsa65.GenerateKey(rand.Reader)
				check(err)
				return pk.Bytes(), sk.Bytes()
			},
			func(private, message []byte) []byte {
				var key mldsa65.PrivateKey
				check(key.UnmarshalBinary(private))
				signature := make([]byte, mldsa65.SignatureSize)
				check(mldsa65.SignTo(&key, message, nil, true, signature))
				return signature
			},
			func(public, message, signature []byte) bool {
				var key mldsa65.PublicKey
				check(key.UnmarshalBinary(public))
				return mldsa65.Verify(&key, message, nil, signature)
			},
		}
	}
	return Calls{
		func() ([]byte, []byte) {
			pk, sk, err := mldsa87.GenerateKey(rand.Reader)
			check(err)
			return pk.Bytes(), sk.Bytes()
		},
		func(private, message []byte) []byte {
			var key mldsa87.PrivateKey
			check(key.UnmarshalBinary(private))
			signature := make([]byte, mldsa87.SignatureSize)
			check(mldsa87.SignTo(&key, message, nil, true, signature))
			return signature
		},
		func(public, message, signature []byte) bool {
			var key mldsa87.PublicKey
			check(key.UnmarshalBinary(public))
			return mldsa87.Verify(&key, message, nil, signature)
		},
	}
}

func numbered(i int) []byte {
	return binary.LittleEndian.AppendUint64(nil, uint64(i))
}

func main() {
	of, count := calls(os.Args[1]), 0
	if len(os.Args) > 3 {
		count, _ = strconv.Atoi(os.Args[3])
	}
	out := bufio.NewWriter(os.Stdout)
	defer out.Flush()
	switch os.Args[2] {
	case "make":
		for i := 0; i < count; i++ {
			public, private := of.keygen()
			fmt.Fprintf(out, "%x %x %x\n", public, numbered(i), of.sign(private, numbered(i)))
		}
	case "judge":
		in := bufio.NewReaderSize(os.Stdin, 1<<20)
		for {
			line, err := in.ReadString('\n')
			if err != nil {
				return
			}
			var parts [3][]byte
			for place, word := range strings.Fields(line) {
				parts[place], err = hex.DecodeString(word)
				check(err)
			}
			if of.verify(parts[0], parts[1], parts[2]) {
				fmt.Fprintln(out, 1)
			} else {
				fmt.Fprintln(out, 0)
			}
		}
	case "time":
		var public, private, signature []byte
		for call := 0; call < 3; call++ {
			for i := 0; i < count; i++ {
				message, done := numbered(i), true
				if call == 2 {
					message = numbered(count - 1)
				}
				start := time.Now()
				switch call {
				case 0:
					public, private = of.keygen()
				case 1:
					signature = of.sign(private, message)
				case 2:
					done = of.verify(public, message, signature)
				}
				fmt.Fprintf(out, "%d ", time.Since(start).Nanoseconds())
				if !done {
					fmt.Fprintln(os.Stderr, "a call failed")
					os.Exit(2)
				}
			}
			fmt.Fprintln(out)
		}
	}
}
