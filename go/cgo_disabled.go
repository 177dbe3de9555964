//go:build !cgo

package pendratsoa

// Without cgo, the compiler reports this name first: the package calls the library for C. Cross-compiling needs
// CGO_ENABLED=1, and a C compiler for the target in CC.
type _ pendratsoa_needs_cgo_to_be_enabled
