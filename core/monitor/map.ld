#include "layout.h"

SECTIONS {
  . = HIGH + MONITOR_CODE;
  .text : { *(.boot) *(.text*) *(.rodata*) }
  . = HIGH + MONITOR_DATA;
  .data : { *(.data*) }
  .bss  : { . = ALIGN(16); bss_start = .; *(.bss* COMMON) . = ALIGN(16); bss_end = .; }
  stack_top = HIGH + MONITOR_DATA_END;
  ASSERT(bss_end + 0x10000 <= stack_top, "64 KB are left to the monitor's stack")
  /DISCARD/ : { *(.note*) *(.comment) *(.eh_frame*) }
}

image_code = HIGH + IMAGE_CODE;
image_globals = HIGH + IMAGE_GLOBALS;
image_stack = HIGH + IMAGE_STACK;
log_bits = HIGH + LOG_BITS;
log_targets = HIGH + LOG_TARGETS;
shelf = HIGH + SHELF;
shelf_end = HIGH + SHELF_END;
job = HIGH + JOB;
