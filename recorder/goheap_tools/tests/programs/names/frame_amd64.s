#include "textflag.h"

// func framePointer() uintptr: the frame pointer of the caller.
TEXT ·framePointer(SB), NOSPLIT, $0-8
	MOVQ BP, ret+0(FP)
	RET
