/* A machine with a stack runs a program of bytes: it adds the products of two counters. */
#include <stdio.h>

enum { END, PUSH, LOAD, STORE, ADD, MULTIPLY, LESS, JUMP_IF };

unsigned char program[] = {
    PUSH, 0, STORE, 0, PUSH, 0, STORE, 1,
    LOAD, 0, LOAD, 1, LOAD, 1, MULTIPLY, ADD, STORE, 0,
    LOAD, 1, PUSH, 1, ADD, STORE, 1,
    LOAD, 1, PUSH, 40, LESS, JUMP_IF, 8, END
};
int stack[16];
int variable[4];

int main(void)
{
    int at;
    int top;
    int steps;
    int running;

    at = 0;
    top = 0;
    steps = 0;
    running = 1;
    while (running) {
        steps++;
        switch (program[at++]) {
        case PUSH:
            stack[top++] = program[at++];
            break;
        case LOAD:
            stack[top++] = variable[program[at++]];
            break;
        case STORE:
            variable[program[at++]] = stack[--top];
            break;
        case ADD:
            top--;
            stack[top - 1] += stack[top];
            break;
        case MULTIPLY:
            top--;
            stack[top - 1] *= stack[top];
            break;
        case LESS:
            top--;
            stack[top - 1] = stack[top - 1] < stack[top];
            break;
        case JUMP_IF:
            top--;
            if (stack[top])
                at = program[at];
            else
                at++;
            break;
        default:
            running = 0;
        }
    }
    printf("%d %d\n", variable[0], steps);
    return 0;
}
