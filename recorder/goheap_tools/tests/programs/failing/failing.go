// Package failing has one test that passes, one that fails and one that panics.
package failing

// Double is twice the text.
func Double(text string) string { return text + text }
