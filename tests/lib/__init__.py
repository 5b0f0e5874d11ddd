"""What all tests share. A test is run by its path, so packages are looked for in this folder's own."""
import lib.places
