//go:build !cron_c_installed

package cron

// The archive that crates/cron_c/archive makes in this checkout.

// #cgo CFLAGS: -I${SRCDIR}/../crates/cron_c/include
// #cgo LDFLAGS: ${SRCDIR}/../crates/cron_c/out/whole/libcron_c.a
import "C"
