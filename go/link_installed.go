//go:build cron_c_installed

package cron

// What `make install` of crates/cron_c put where pkg-config finds it.

// #cgo pkg-config: cron_c
import "C"
