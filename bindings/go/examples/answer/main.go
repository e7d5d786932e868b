// Answer answers questions, each a line of the standard input, by lines that bindings/compare.py compares with those of
// the program and of the other bindings. That file says which questions there are, and how they are answered.
package main

import (
	"bufio"
	"encoding/hex"
	"errors"
	"fmt"
	"os"
	"strconv"
	"strings"

	"clubcard"
)

// must ends the program where there is an error that is no answer.
func must[T any](value T, err error) T {
	if err != nil {
		fmt.Fprintln(os.Stderr, "answer:", err)
		os.Exit(1)
	}
	return value
}

func keyOf(word string) (key [32]byte) {
	copy(key[:], must(hex.DecodeString(word)))
	return key
}

// queryOf is the query of ISSUER SERIAL [LOG TIME ..].
func queryOf(words []string) clubcard.Query {
	query := clubcard.Query{Issuer: keyOf(words[0]), Serial: must(hex.DecodeString(strings.Trim(words[1], "-")))}
	for place := 2; place < len(words); place += 2 {
		time := must(strconv.ParseUint(words[place+1], 10, 64))
		query.Sightings = append(query.Sightings, clubcard.Sighting{Log: keyOf(words[place]), Time: time})
	}
	return query
}

// refusedBy is the error of a call, which is one of the library's.
func refusedBy(err error) *clubcard.Refused {
	var refused *clubcard.Refused
	if !errors.As(err, &refused) {
		must(0, err)
	}
	return refused
}

func number(verdict clubcard.Verdict, err error) string {
	if err != nil {
		return fmt.Sprint(uint32(refusedBy(err).Refusal))
	}
	return fmt.Sprint(uint32(verdict))
}

func refusal(err error) string {
	refused := refusedBy(err)
	field := refused.Field
	if field == "" {
		field = "-"
	}
	return fmt.Sprintf("%d %d %s", uint32(refused.Refusal), refused.At, field)
}

func answerEach(store *clubcard.Store, words []string) string {
	var queries []clubcard.Query
	for _, text := range strings.Split(strings.Join(words, " "), " | ") {
		queries = append(queries, queryOf(strings.Fields(text)))
	}
	var numbers []string
	for _, answer := range store.AskEach(queries) {
		numbers = append(numbers, number(answer.Verdict, answer.Err))
	}
	return strings.Join(numbers, " ")
}

func answerPlace(words []string) string {
	by := clubcard.ByIdentity
	if words[0] == "issuer" {
		by = clubcard.ByIssuer
	}
	query := queryOf(words[1:3])
	place, err := clubcard.Place(by, query.Issuer, query.Serial, must(strconv.ParseUint(words[3], 10, 64)))
	return fmt.Sprintf("%s %d", number(0, err), place)
}

func answerPart(name string) string {
	part, err := clubcard.CheckPart(must(os.ReadFile(name)))
	if err != nil {
		return refusal(err)
	}
	kind := 0
	if part.IsDelta {
		kind = 1
	}
	return fmt.Sprintf("0 %d %d %d %d %x", kind, part.Epoch, part.Ranges, part.Issuers, part.Trailer)
}

func answerInstall(store *clubcard.Store, part, name string) string {
	made, err := store.Install(must(os.ReadFile(part)))
	if err != nil {
		return refusal(err)
	}
	must(0, os.WriteFile(name, made, 0o666))
	return fmt.Sprintf("0 %d", len(made))
}

// answer answers a question of an opened store.
func answer(store *clubcard.Store, words []string) string {
	switch words[0] {
	case "ask":
		query := queryOf(words[1:])
		return number(store.Ask(query.Issuer, query.Serial, query.Sightings))
	case "each":
		return answerEach(store, words[1:])
	case "cert":
		return number(store.AskCert(must(os.ReadFile(words[1])), must(os.ReadFile(words[2]))))
	case "until":
		if until, isCovered := store.CoveredUntil(keyOf(words[1])); isCovered {
			return fmt.Sprintf("0 %d", until)
		}
		return "1 0"
	case "part":
		return answerPart(words[1])
	case "place":
		return answerPlace(words[1:])
	case "install":
		return answerInstall(store, words[1], words[2])
	}
	return must("", fmt.Errorf("this is no question: %v", words))
}

func main() {
	var store *clubcard.Store
	lines := bufio.NewScanner(os.Stdin)
	lines.Buffer(nil, 1<<20)
	printed := bufio.NewWriter(os.Stdout)
	for lines.Scan() {
		words := strings.Fields(lines.Text())
		if words[0] != "store" {
			fmt.Fprintln(printed, answer(store, words))
			continue
		}
		var err error
		if store, err = clubcard.Open(must(os.ReadFile(words[1]))); err != nil {
			fmt.Fprintln(printed, refusal(err))
			continue
		}
		fmt.Fprintf(printed, "0 %d %d\n", store.Facts().Parts, store.Facts().NewestEpoch)
	}
	must(0, lines.Err())
	must(0, printed.Flush())
}
