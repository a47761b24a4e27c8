/* area.elf is this file, compiled by gcc 12 in the folder that the path /src stands for:
 *   gcc -g -O2 -nostdlib -static -no-pie -fno-pie -fno-asynchronous-unwind-tables \
 *       -ffile-prefix-map=$PWD=/src -Wl,--build-id=none -Wl,-z,noseparate-code -o area.elf area.c
 *   objcopy -R .comment -R .note.gnu.property area.elf
 */
volatile int width = 3, height = 4;
volatile int total;

static inline int area(int w, int h)
{
    return w * h;
}

static inline int room(int floors)
{
    int sum = 0;
    for (int floor = 0; floor < floors; floor++)
        sum += area(width, height);
    return sum;
}

void measure(int floors)
{
    total = room(floors);
}

void _start(void)
{
    measure(2);
    for (;;)
        ;
}
