// clean

package main

import (
	"fmt"
	"os"
	"runtime/debug"
)

func main() {
	info, ok := debug.ReadBuildInfo()
	if !ok || info.Path != "example.com/programs/buildinfo" || info.Main.Path != "example.com/programs" || len(info.Deps) > 0 {
		fmt.Println(info)
		os.Exit(1)
	}
}
