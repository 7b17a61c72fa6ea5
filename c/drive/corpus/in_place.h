/* Runs the corpus' driver with its memory in place: loads and stores through pointers replace its memory calls. */
#ifndef CORPUS_IN_PLACE_H
#define CORPUS_IN_PLACE_H

#define nicx_get64(bus) (*(volatile uint64_t *)nicd_dma_pointer(bus))
#define nicx_put64(bus, value) ((void)(*(volatile uint64_t *)nicd_dma_pointer(bus) = (value)))
#define nicx_dma_read(bus, bytes, length) ((void)memcpy(bytes, nicd_dma_pointer(bus), length))
#define nicx_dma_write(bus, bytes, length) ((void)memcpy(nicd_dma_pointer(bus), bytes, length))

#endif
