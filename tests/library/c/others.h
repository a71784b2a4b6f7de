/* Names of the RSP that others declare: those of libdragon's rsp.h, of the plugins of mupen64plus, and what emulators call
 * their own. Written after what they declare; no line is theirs. */
#include <stdbool.h>
#include <stdint.h>

/* libdragon */
typedef struct rsp_ucode_s {
    uint8_t *code;
    void *code_end;
    void *data;
    void *data_end;
    const char *name;
    uint32_t start_pc;
} rsp_ucode_t;
typedef struct rsp_snapshot_s {
    uint32_t gpr[32];
    uint16_t vpr[32][8];
    uint8_t dmem[4096], imem[4096];
} rsp_snapshot_t;
#define RSP_DMA_READ 0
#define RSP_STATUS_HALTED 1
#define rsp_assert(condition) ((void)(condition))
void rsp_init(void);
void rsp_load(rsp_ucode_t *ucode);
void rsp_load_code(void *code, unsigned long size, unsigned int imem_offset);
void rsp_load_data(void *data, unsigned long size, unsigned int dmem_offset);
void rsp_read_code(void *code, unsigned long size, unsigned int imem_offset);
void rsp_read_data(void *data, unsigned long size, unsigned int dmem_offset);
void rsp_run_async(void);
void rsp_wait(void);
void rsp_run(void);
void rsp_pause(bool pause);

/* mupen64plus */
typedef struct {
    unsigned char *RDRAM, *DMEM, *IMEM;
    unsigned int *MI_INTR_REG, *SP_MEM_ADDR_REG, *SP_STATUS_REG;
    void (*CheckInterrupts)(void);
} RSP_INFO;
#define RSP_API_VERSION 0x20000
void InitiateRSP(RSP_INFO info, unsigned int *cycles);
unsigned int DoRspCycles(unsigned int cycles);

/* emulators */
struct rsp {
    uint32_t pc;
};
uint32_t rsp_step(struct rsp *it);
void rsp_free(struct rsp *it);
uint32_t rsp_version(void);
