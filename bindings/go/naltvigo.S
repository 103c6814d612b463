/* The library in assembly, which cgo has the C compiler assemble. In the archive of this module the files are in this folder. */
#include "../../portable/naltvigo.S"
