package main

import (
	"errors"
	"flag"
	"fmt"
	"io"
	"os"
	"os/exec"
	"regexp"
	"strconv"
	"strings"

	"gorace.local/recorder/internal/trace"
)

// options are what gorec's own flags say.
type options struct {
	kept, log, gorace, seed string
	format, runs, records   int
	all, json, stacks       bool
	predict, turned         bool
	base, verdicts          string // of gorec exec
	tests                   bool   // of gorec build
}

// define defines the flags of a command.
func (o *options) define(command string, flags *flag.FlagSet) {
	switch command {
	case "build":
		flags.StringVar(&o.kept, "o", "", "the `file` to build")
		flags.BoolVar(&o.tests, "tests", false, "build the package's tests")
		return
	case "trace":
		o.runs = 1
		flags.BoolVar(&o.all, "all", false, "keep what one goroutine alone uses")
		flags.IntVar(&o.format, "format", 0, "the `version` of the trace, 1 or 2")
		flags.BoolVar(&o.predict, "predict", false, "write what gorace predict needs")
		flags.IntVar(&o.records, "records", mostRecords, "up to `N` records of the log")
		return
	case "exec":
		flags.StringVar(&o.base, "base", "", "tell places as seen from this `folder`")
		flags.StringVar(&o.verdicts, "verdicts", "", "leave the verdict in this `file` of gorec test, and end when that does")
	}
	if command != "test" { // whose -json is go test's
		flags.BoolVar(&o.json, "json", false, "write lines of JSON: output, races and verdicts")
	}
	flags.StringVar(&o.kept, "o", "",
		"keep the trace in this `file` or folder; of several packages, those that aren't clean, in this folder")
	flags.StringVar(&o.log, "log", "", "keep the log, of up to 745 MB, in this `file`")
	flags.StringVar(&o.gorace, "gorace", "", "the `command` that judges: a file, or words between blanks")
	flags.StringVar(&o.seed, "seed", "", "a `number` up to 4,294,967,295, which sets where goroutines yield; 0: nowhere")
	flags.IntVar(&o.format, "format", 0, "the `version` of the trace, 1 or 2; 2 has words for TryLock and TryRLock")
	flags.IntVar(&o.runs, "runs", 1, "run up to `N` times, each with another seed, until a race is found")
	flags.BoolVar(&o.all, "all", false, "keep what one goroutine alone uses")
	flags.IntVar(&o.records, "records", 0, "judge the log each `N` records, up to 20,971,520, while the program goes on; 0: 524,288")
	flags.BoolVar(&o.stacks, "stacks", true, "record the calls that led to each access")
	flags.BoolVar(&o.predict, "predict", false, "tell races of other orders of the run too, with status 66; writes version 2")
	flags.BoolVar(&o.turned, "turned", false, "with -predict: critical sections and messages may change places too")
}

// How many records -records has a part be of.
const (
	fewestRecords = 1 << 10
	mostRecords   = 1<<24 + 1<<22
)

// check refuses what can't be recorded, and takes from the environment what no flag says.
func (o *options) check() error {
	if o.predict && o.format == 0 {
		o.format = trace.Newest
	}
	seed, format := "-seed "+o.seed, fmt.Sprintf("-format %d", o.format)
	if o.seed == "" {
		o.seed = os.Getenv("GOREC_SEED")
		seed = "GOREC_SEED=" + o.seed
	}
	if version := os.Getenv("GOREC_FORMAT"); o.format == 0 && version != "" {
		format = "GOREC_FORMAT=" + version
		if o.format, _ = strconv.Atoi(version); o.format == 0 {
			o.format = -1
		}
	}
	_, err := strconv.ParseUint(o.seed, 10, 32)
	switch {
	case o.seed != "" && err != nil:
		return errors.New(seed + ": a seed is a number from 0 to 4,294,967,295")
	case o.format < 0 || o.format > trace.Newest:
		return errors.New(format + ": a trace has version 1 or 2")
	case o.predict && o.format == 1:
		return errors.New("-predict: a trace of version 1 doesn't say which TryLock failed; leave out -format 1")
	case o.turned && !o.predict:
		return errors.New("-turned goes with -predict")
	case o.records != 0 && (o.records < fewestRecords || o.records > mostRecords):
		return fmt.Errorf("-records %d: a log has from 1,024 to 20,971,520", o.records)
	case o.runs < 1:
		return fmt.Errorf("-runs %d: there is no run", o.runs)
	case o.format == 0:
		o.format = 1
	}
	return nil
}

// words are those of a command: gorec's own flags, those of the command go, and the rest.
type words struct {
	own   *flag.FlagSet // go's are there too
	flags []string      // go's, each as -name=value
	rest  []string
}

// A goFlag is a flag of the command go.
type goFlag struct {
	words  *words
	name   string
	isBool bool
}

func (f *goFlag) String() string   { return "" }
func (f *goFlag) IsBoolFlag() bool { return f.isBool }

func (f *goFlag) Set(value string) error {
	if f.name == "C" {
		return os.Chdir(value)
	}
	f.words.flags = append(f.words.flags, "-"+f.name+"="+value)
	return nil
}

func newFlagSet(name string) *flag.FlagSet {
	set := flag.NewFlagSet(name, flag.ContinueOnError)
	set.SetOutput(io.Discard)
	return set
}

// parse takes the words of a command apart.
func (w *words) parse(c command, args []string) (err error) {
	gos := newFlagSet("go")
	w.defineGoFlags(c.topics, gos, w.own)
	if c.name == "test" {
		err = w.parseTest(gos, args)
	} else {
		err = w.own.Parse(args)
		w.rest = w.own.Args()
	}
	for i := 0; err == nil && i < len(w.flags); i++ {
		err = refusal(w.flags[i])
	}
	return err
}

// helpLine is the line of a flag in the help of go.
var helpLine = regexp.MustCompile(`(?m)^\t-(\w+)( \S.*)?$`)

// defineGoFlags defines those that the help of go tells of, so that those of a newer Go are known too. A flag of tests has two
// names.
func (w *words) defineGoFlags(topics []string, sets ...*flag.FlagSet) {
	for _, topic := range topics {
		text, _ := exec.Command("go", "help", topic).Output() // that there is no go is told by the build
		for _, m := range helpLine.FindAllStringSubmatch(string(text), -1) {
			for _, name := range []string{m[1], "test." + m[1]} {
				for _, set := range sets {
					if set.Lookup(name) == nil {
						set.Var(&goFlag{w, name, m[2] == ""}, name, "")
					}
				}
			}
		}
	}
}

// parseTest takes apart the words of go test: flags, packages, and flags again. gorec's own flags stand before the packages
// alone. What no flag of go test is belongs to the tests, as does all after a word that stands there.
func (w *words) parseTest(gos *flag.FlagSet, args []string) error {
	set, after, mayBeValue := w.own, false, false
	for len(args) > 0 {
		name, _, hasValue := cutFlag(args[0])
		known, n := set.Lookup(name), 1
		switch {
		case args[0] == "--", name == "args", name == "" && after && !mayBeValue:
			w.rest = append(w.rest, args...)
			return nil
		case name == "h", name == "help":
			return flag.ErrHelp
		case known == nil:
			w.rest, set, after = append(w.rest, args[0]), gos, after || name != ""
		default:
			isBool, is := known.Value.(interface{ IsBoolFlag() bool })
			if !hasValue && !(is && isBool.IsBoolFlag()) && len(args) > 1 {
				n = 2
			}
			if err := set.Parse(args[:n]); err != nil {
				return err
			}
			after = set == gos
		}
		mayBeValue = name != "" && known == nil && !hasValue
		args = args[n:]
	}
	return nil
}

// cutFlag is a flag's name, and its value if that stands after =; "" where it is no flag.
func cutFlag(word string) (name, value string, hasValue bool) {
	if len(word) < 2 || word[0] != '-' {
		return "", "", false
	}
	return strings.Cut(strings.TrimPrefix(word[1:], "-"), "=")
}

// refusal says why a flag of the command go can't be used where a program is recorded, if so.
func refusal(word string) error {
	switch name, value, _ := cutFlag(word); {
	case name == "exec":
		return errors.New("-exec: the programs are run by gorec exec")
	case (name == "msan" || name == "asan") && value != "false":
		return fmt.Errorf("-%s: a program has the calls of one of -race, -msan and -asan", name)
	case name == "compiler" && value != "gc":
		return fmt.Errorf("-compiler %s: only Go's own compiler puts in the calls that record", value)
	case name == "buildmode" && value != "exe" && value != "pie" && value != "default":
		return fmt.Errorf("-buildmode %s: gorec records programs", value)
	}
	return nil
}
