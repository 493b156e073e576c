package process

import "syscall"

// attributes has a program killed where gorec is. One with a group of its own gets no signals of the terminal.
func attributes(ownGroup bool) *syscall.SysProcAttr {
	return &syscall.SysProcAttr{Pdeathsig: syscall.SIGKILL, Setpgid: ownGroup}
}
