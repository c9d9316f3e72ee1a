/* A plain planner in C: the same job bytes, checks, answers, plan bytes and columns as fallowroe_plan and
   fallowroe_columns of include/fallowroe.h. */
#include <stddef.h>
#include <stdint.h>

uint64_t plain_plan(const uint8_t *job, size_t job_length, uint8_t *plan, size_t plan_room, uint64_t values[3]);

uint64_t plain_columns(const uint8_t *job, size_t job_length, uint8_t *plan, size_t plan_room, uint32_t *list, size_t list_places,
                       uint64_t values[3]);
