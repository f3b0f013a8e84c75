// The reference record's questions through blitiri.com.ar/go/spf, over a resolver in memory: one round, a line each with the case's word and the
// microseconds of one check.
package main

import (
	"context"
	"fmt"
	"net"
	"os"
	"runtime"
	"time"

	"blitiri.com.ar/go/spf"
)

const least = 30 * time.Millisecond // that a case takes in a round

type zone struct {
	txt map[string][]string
	mx  map[string][]*net.MX
	ip  map[string][]net.IPAddr
}

func (z *zone) LookupTXT(_ context.Context, name string) ([]string, error) { return z.txt[name], nil }
func (z *zone) LookupMX(_ context.Context, name string) ([]*net.MX, error) { return z.mx[name], nil }
func (z *zone) LookupIPAddr(_ context.Context, name string) ([]net.IPAddr, error) {
	return z.ip[name], nil
}
func (z *zone) LookupAddr(_ context.Context, _ string) ([]string, error) { return nil, nil }

var answers = &zone{
	txt: map[string][]string{
		"example.com": {"v=spf1 ip4:192.0.2.0/24 a mx include:b.example -all"},
		"b.example":   {"v=spf1 ip4:203.0.113.0/24 -all"},
	},
	mx: map[string][]*net.MX{"example.com": {{Host: "mx.example.com", Pref: 10}}},
	ip: map[string][]net.IPAddr{
		"example.com":    {{IP: net.IPv4(198, 51, 100, 1)}},
		"mx.example.com": {{IP: net.IPv4(198, 51, 100, 2)}},
	},
}

var cases = []struct {
	word   string
	client net.IP
	result spf.Result
}{
	{"first", net.IPv4(192, 0, 2, 1), spf.Pass},
	{"include", net.IPv4(203, 0, 113, 1), spf.Pass},
	{"fail", net.IPv4(10, 0, 0, 1), spf.Fail},
}

func check(client net.IP) spf.Result {
	result, _ := spf.CheckHostWithSender(client, "mail.example.com", "user@example.com", spf.WithResolver(answers))
	return result
}

// The microseconds of one check, over so long at least.
func timed(client net.IP, long time.Duration) float64 {
	done, batch, start := 0, 1, time.Now()
	for time.Since(start) < long {
		for k := 0; k < batch; k++ {
			check(client)
		}
		done += batch
		batch *= 2
	}
	return float64(time.Since(start).Nanoseconds()) / 1e3 / float64(done)
}

func main() {
	runtime.GOMAXPROCS(1)
	timed(cases[0].client, 10*least) // until the processor is awake
	for _, c := range cases {
		if got := check(c.client); got != c.result {
			fmt.Fprintf(os.Stderr, "go-spf answers %s and not %s: %s\n", got, c.result, c.word)
			os.Exit(1)
		}
		timed(c.client, least/3)
		fmt.Printf("%s\t%.4f\n", c.word, timed(c.client, least))
	}
}
