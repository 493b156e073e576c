// clean

package main

import (
	"fmt"
	"io"
	"os/exec"
	"runtime"
	"time"
)

// output is written by a goroutine of package os/exec.
type output struct {
	n    int
	last byte
}

func (o *output) Write(b []byte) (int, error) {
	o.n += len(b)
	o.last = b[len(b)-1]
	return len(b), nil
}

// input is read by another.
type input struct{ left int }

func (i *input) Read(b []byte) (int, error) {
	if i.left == 0 {
		return 0, io.EOF
	}
	i.left--
	return copy(b, "line\n"), nil
}

func main() {
	in, out, errors := &input{3}, &output{}, &output{}
	command := exec.Command("/bin/sh", "-c", "cat; echo no >&2")
	command.Stdin, command.Stdout, command.Stderr = in, out, errors
	if err := command.Run(); err != nil {
		panic(err)
	}
	fmt.Println(in.left, out.n, out.last, errors.n)
	errors = &output{}
	command = exec.Command("/bin/sh", "-c", "echo yes; echo no >&2")
	command.Stderr = errors
	answer, err := command.Output()
	fmt.Println(string(answer), err, errors.n)
	out = &output{}
	command = exec.Command("echo", "hello")
	command.Stdout = out
	if err := command.Start(); err != nil {
		panic(err)
	}
	time.Sleep(20 * time.Millisecond)
	for i := 0; i < 3; i++ {
		runtime.GC() // who wrote has ended
		time.Sleep(time.Millisecond)
	}
	if err := command.Wait(); err != nil {
		panic(err)
	}
	fmt.Println(out.n)
}
