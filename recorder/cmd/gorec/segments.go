package main

import (
	"bytes"
	"fmt"
	"io"
	"os"
	"path/filepath"
	"sort"
	"strings"
	"time"

	"gorace.local/recorder/internal/hooklog"
	"gorace.local/recorder/internal/report"
	"gorace.local/recorder/internal/translate"
)

// judgeSegment has a segment judged. Names are found only if somebody will see the trace.
func (r *run) judgeSegment(s *translate.Segment) error {
	r.segments++
	isNamed := r.predict || s.Last && (!r.isTest || r.kept != "")
	if isNamed {
		r.nameObjects(s)
	}
	o, err := r.judgeTrace(s)
	if err == nil && o.Status != 0 && !isNamed && (len(o.All) == 0 || r.isNew(o)) {
		r.nameObjects(s)
		o, err = r.judgeTrace(s)
	}
	if err != nil {
		return err
	}
	isNew := r.isNew(o)
	if isNew {
		o.Learn(s.Trace.Moments, s.Labels, r.stack)
		r.reports = append(r.reports, o)
	}
	r.tellSegment(o, s.Last && r.segments == 1, isNew)
	r.add(o, s)
	return nil
}

// judgeTrace writes a trace, and has it judged.
func (r *run) judgeTrace(s *translate.Segment) (*report.Report, error) {
	path := r.trace
	if r.first != nil {
		path += ".next"
	}
	file, err := os.Create(path)
	if err != nil {
		return nil, err
	}
	defer file.Close()
	summary, err := s.Trace.Write(file)
	if err == nil {
		_, err = file.Seek(0, io.SeekStart)
	}
	if err != nil {
		return nil, err
	}
	o, err := r.ask(file)
	if err == nil {
		o.Summary = summary
	}
	return o, err
}

// isNew reports whether a segment has a race at other places than those that were told.
func (r *run) isNew(o *report.Report) bool {
	for _, of := range o.All {
		if !r.told[of.Key()] {
			return true
		}
	}
	return false
}

// noteEach is the time between notes of segments that have no other race than those before.
const noteEach = 10 * time.Second

// tellSegment tells of a segment. Of a clean one among several there is a note, and of one without a new race, now and then.
func (r *run) tellSegment(o *report.Report, isOnly, isNew bool) {
	which, note := fmt.Sprintf("gorec: segment %d: ", r.segments), ""
	switch {
	case isOnly:
		which = "gorec: "
	case len(o.All) > 0 && !isNew:
		note = "only races at places that were reported before"
	case o.Status == 0:
		note, _, _ = strings.Cut(o.Text, "\n")
	}
	if note != "" && time.Since(r.noted) < noteEach {
		return
	}
	fmt.Fprintln(r.notes, which+o.Summary.Counts())
	if note != "" {
		r.noted = time.Now()
		fmt.Fprintln(r.notes, which+note)
		return
	}
	o.Tell(r.out)
}

// add adds a segment to what is known of the run.
func (r *run) add(o *report.Report, s *translate.Segment) {
	for _, of := range o.All {
		r.told[of.Key()], r.told[report.PredictedKey+of.Key()] = true, true // what races needn't be predicted any more
	}
	if len(o.All) > 0 {
		if r.racing++; r.first == nil {
			r.first = o
		}
	}
	r.Status = worse(o.Status, r.Status)
	r.Races += len(o.Races)
	r.Predicted += len(o.Predicted)
	r.NotSearched += o.NotSearched
	r.Events += o.Summary.Events
	r.Records += o.Summary.Records
	switch {
	case o.Summary.Cut != "":
		r.Cut = o.Summary.Cut
	case !s.Last: // it goes on in another one
		r.ends[s.End]++
	case s.Cut != "":
		r.Cut = s.Cut
	}
}

// tellSegments tells at the end where the trace is cut off, and what lies between segments.
func (r *run) tellSegments() {
	if r.segments > 1 && r.predict {
		fmt.Fprintf(r.out, "gorec: of all traces predicted: %d, not searched: %d variables\n", r.Predicted, r.NotSearched)
	}
	tellCut(r.out, r.Events, r.Cut)
	if r.segments == 1 {
		return
	}
	var reasons []string
	for reason, n := range r.ends {
		reasons = append(reasons, fmt.Sprintf("%s (%d)", reason, n))
	}
	sort.Strings(reasons)
	fmt.Fprintf(r.out, "gorec: judged in %d segments, %d of them with races; races of accesses in different ones are missed; "+
		"they ended with %s\n", r.segments, r.racing, strings.Join(reasons, ", "))
}

// tellCut writes where a trace is cut off.
func tellCut(w io.Writer, events int, cut string) {
	if cut != "" {
		fmt.Fprintf(w, "gorec: the trace is cut off after %d events: %s\n", events, cut)
	}
}

// judgeChildren has the logs of processes judged that the program started from its own file, as tests do: the program's with the
// number of the process after its name.
func (r *run) judgeChildren() error {
	path := r.reader.Path() + "."
	logs, _ := filepath.Glob(path + "[1-9]*")
	judged := 0
	for _, log := range logs {
		isOwn, err := r.judgeChild(log, strings.TrimPrefix(log, path))
		if err != nil {
			return fmt.Errorf("process %s, which the program started: %w", strings.TrimPrefix(log, path), err)
		}
		if isOwn {
			judged++
		}
	}
	if judged > 0 {
		fmt.Fprintf(r.notes, "gorec: processes that the program started, which are judged too: %d\n", judged)
	}
	return nil
}

// judgeChild has such a log judged, unless it is another program's. What is said of it is told unless it is clean, or its races were
// told.
func (r *run) judgeChild(path, process string) (isOwn bool, err error) {
	if r.log == "" {
		defer os.Remove(path)
	}
	var told bytes.Buffer
	s := *r.session
	s.name, s.out, s.notes = s.name+"."+process, &told, &told
	if s.keepsFile() {
		s.kept = os.DevNull // the file has the program's own trace
	}
	child, err := s.newRun(hooklog.Open(path))
	if err != nil {
		return false, err
	}
	defer child.close()
	if h, own := child.reader.Header(), r.reader.Header(); h.Text != 0 && h.Types-h.Text != own.Types-own.Text {
		fmt.Fprintf(r.notes, "gorec: process %s, which the program started, is of another program, and isn't judged\n", process)
		return false, nil
	}
	child.told = r.told
	ended := make(chan struct{})
	close(ended)
	if err := child.follow(ended); err != nil {
		return true, err
	}
	if child.Status != 0 && (child.Status != racing || len(child.reports) > 0) {
		child.keep()
		child.tellTrace()
		fmt.Fprintf(r.out, "gorec: of process %s, which the program started:\n%s", process, told.String())
	}
	r.Status = worse(child.Status, r.Status)
	r.reports = append(r.reports, child.reports...)
	r.Races += child.Races
	r.Predicted += child.Predicted
	r.NotSearched += child.NotSearched
	return true, nil
}
