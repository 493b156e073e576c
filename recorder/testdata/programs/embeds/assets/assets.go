// Package assets has all that is in its folder.
package assets

import "embed"

// Files are those of the folder.
//
//go:embed *
var Files embed.FS
