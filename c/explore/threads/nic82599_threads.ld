/* Groups a driver's variables, so that they can be restored before each schedule, and its code, which is scanned for
   barriers that the search can't see. What isn't the driver's stays in place: this library, and what the compiler adds.
   This script extends the linker's own. */
SECTIONS
{
    .nicx.text :
    {
        nicxi_text_begin = .;
        *(EXCLUDE_FILE(*libnic82599* *crt1.o *crti.o *crtbegin*.o *crtend*.o *crtn.o *libc.a *libc_nonshared.a *libgcc* *libstdc++* *libclang_rt* *libasan* *libubsan*) .text
          EXCLUDE_FILE(*libnic82599* *crt1.o *crti.o *crtbegin*.o *crtend*.o *crtn.o *libc.a *libc_nonshared.a *libgcc* *libstdc++* *libclang_rt* *libasan* *libubsan*) .text.*)
        nicxi_text_end = .;
    }
}
INSERT AFTER .text;
SECTIONS
{
    .nicx.data :
    {
        nicxi_data_begin = .;
        *(EXCLUDE_FILE(*libnic82599* *crt1.o *crti.o *crtbegin*.o *crtend*.o *crtn.o *libc.a *libgcc* *libclang_rt* *libasan* *libubsan*) .data
          EXCLUDE_FILE(*libnic82599* *crt1.o *crti.o *crtbegin*.o *crtend*.o *crtn.o *libc.a *libgcc* *libclang_rt* *libasan* *libubsan*) .data.*)
        nicxi_data_end = .;
    }
}
INSERT AFTER .data;
SECTIONS
{
    .nicx.bss :
    {
        nicxi_bss_begin = .;
        *(EXCLUDE_FILE(*libnic82599* *crt1.o *crti.o *crtbegin*.o *crtend*.o *crtn.o *libc.a *libgcc* *libclang_rt* *libasan* *libubsan*) .bss
          EXCLUDE_FILE(*libnic82599* *crt1.o *crti.o *crtbegin*.o *crtend*.o *crtn.o *libc.a *libgcc* *libclang_rt* *libasan* *libubsan*) .bss.*
          EXCLUDE_FILE(*libnic82599* *crt1.o *crti.o *crtbegin*.o *crtend*.o *crtn.o *libc.a *libgcc* *libclang_rt* *libasan* *libubsan*) COMMON)
        nicxi_bss_end = .;
    }
}
INSERT AFTER .bss;
