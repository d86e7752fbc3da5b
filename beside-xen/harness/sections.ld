SECTIONS
{
  .schedulers : { __start_schedulers_array = .; KEEP(*(.data.schedulers)) __end_schedulers_array = .; }
  .parameters : { __setup_start = .; KEEP(*(.init.setup)) __setup_end = .; }
  .initcalls : { first_initcall = .; KEEP(*(.initcall1.init)) end_of_initcalls = .; }
}
INSERT BEFORE .data;
