// As driver.py, for the client in Go.
package main

import (
	"bufio"
	"bytes"
	"encoding/hex"
	"errors"
	"fmt"
	"noticed"
	"os"
	"strconv"
	"strings"
	"time"
)

type request struct {
	kind    string
	number  uint32
	key     noticed.Key
	outcome noticed.Outcome
	notice  noticed.Notice
	place   int
}

func requestOf(line string) request {
	words := strings.Fields(line)
	number, _ := strconv.ParseUint(words[1], 10, 32)
	it := request{kind: words[0], number: uint32(number), place: noticed.NoPlace}
	for _, word := range words[2:] {
		name, value, _ := strings.Cut(word, "=")
		given, _ := strconv.ParseInt(value, 10, 64)
		bytes, _ := hex.DecodeString(value)
		text := string(bytes)
		switch name {
		case "service":
			it.key.Service = byte(given)
		case "queue_id":
			it.key.QueueID = text
		case "recipient":
			it.outcome.Recipient = text
		case "action":
			it.outcome.Action = byte(given)
		case "status":
			it.outcome.Status = text
		case "original_recipient":
			it.outcome.OriginalRecipient = text
		case "remote_mta":
			it.outcome.RemoteMTA = text
		case "diagnostic":
			it.outcome.Diagnostic = text
		case "reason":
			it.outcome.Reason = text
		case "last_attempt":
			it.outcome.LastAttempt = time.Unix(given, 0)
		case "retry_until":
			it.outcome.RetryUntil = time.Unix(given, 0)
		case "recipient_type":
			it.outcome.RecipientType = text
		case "original_type":
			it.outcome.OriginalType = text
		case "diagnostic_type":
			it.outcome.DiagnosticType = text
		case "extensions":
			it.outcome.Extensions, it.notice.Extensions = text, text
		case "return_path":
			it.notice.ReturnPath = text
		case "moment":
			it.notice.Moment = time.Unix(given, 0)
		case "arrival":
			it.notice.Arrival = time.Unix(given, 0)
		case "expected":
			it.notice.Expected = uint32(given)
		case "envelope_id":
			it.notice.EnvelopeID = text
		case "header":
			it.notice.Header = text
		case "returned":
			it.notice.Returned = byte(given)
		case "wording":
			if it.notice.Wording = byte(given); given == 0 {
				it.notice.Wording = noticed.ByService
			}
		case "place":
			it.place = int(given)
		}
	}
	return it
}

func encode(line string) string {
	it := requestOf(line)
	frame, err := []byte{}, error(nil)
	switch it.kind {
	case "append":
		frame, err = noticed.EncodeAppend(it.number, it.key, it.outcome)
	case "flush":
		frame, err = noticed.EncodeFlush(it.number, it.key, it.notice)
	case "discard":
		frame, err = noticed.Encode(3, it.number, it.key, nil)
	case "forget":
		frame, err = noticed.Encode(4, it.number, it.key, nil)
	}
	if err != nil {
		return "invalid"
	}
	return hex.EncodeToString(frame)
}

func shown(it noticed.Answer) string {
	if it.Serial < 0 {
		return fmt.Sprintf("%d %d -", it.Reply, it.Value)
	}
	return fmt.Sprintf("%d %d %d", it.Reply, it.Value, it.Serial)
}

func decode(line string) string {
	frame, _ := hex.DecodeString(line)
	number, answer, err := noticed.Decode(bytes.NewReader(frame))
	if err != nil {
		return "invalid"
	}
	return fmt.Sprintf("%d %s", number, shown(answer))
}

func carry(client *noticed.Client, line string) string {
	if line == "close" {
		client.Close()
		return "closed"
	}
	it := requestOf(line)
	answer, err := noticed.Answer{}, error(nil)
	switch it.kind {
	case "append":
		answer, err = client.Append(it.key, it.outcome, it.place)
	case "flush":
		answer, err = client.Flush(it.key, it.notice)
	case "discard":
		answer, err = client.Discard(it.key)
	case "forget":
		answer, err = client.Forget(it.key)
	}
	var refused *noticed.RefusedError
	switch {
	case err == nil:
		return shown(answer)
	case errors.As(err, &refused):
		return refused.Error()
	case errors.Is(err, noticed.ErrPathTooLong):
		return "path"
	case errors.Is(err, noticed.ErrInvalid):
		return "invalid"
	case errors.Is(err, noticed.ErrUnreachable):
		return "unreachable"
	case errors.Is(err, noticed.ErrUnanswered):
		return "unanswered"
	case errors.Is(err, os.ErrPermission):
		return "denied"
	}
	return err.Error()
}

func main() {
	does := map[string]func(string) string{"encode": encode, "decode": decode}[os.Args[1]]
	if os.Args[1] == "carry" {
		client := noticed.New(os.Args[2])
		to := &client.Limits
		limits := []*time.Duration{&to.Connect, &to.Send, &to.Worker, &to.Answer, &to.Request, &to.Reach}
		for at, word := range os.Args[3:] {
			seconds, _ := strconv.ParseFloat(word, 64)
			*limits[at] = time.Duration(seconds * float64(time.Second))
		}
		does = func(line string) string { return carry(client, line) }
	}
	lines := bufio.NewScanner(os.Stdin)
	lines.Buffer(nil, 1<<20)
	for lines.Scan() {
		fmt.Println(does(lines.Text()))
	}
}
