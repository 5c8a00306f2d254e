package fowharimu

// The installed library, where pkg-config finds it.

// #cgo pkg-config: fowharimu
import "C"
