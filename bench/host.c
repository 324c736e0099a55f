// host KERNEL GROUPS LANES: builds the kernel `work` without optimisation, runs it once, and prints a sum of the field and the seconds of the processor that it took.
#define CL_TARGET_OPENCL_VERSION 120
#include <CL/cl.h>
#include <stdint.h>
#include <stdio.h>
#include <stdlib.h>
#include <time.h>

static void must(cl_int status, const char *what)
{
    if (status != CL_SUCCESS) {
        fprintf(stderr, "%s: %d\n", what, (int)status);
        exit(1);
    }
}

static char *load(const char *path)
{
    FILE *file = fopen(path, "rb");
    if (!file) {
        perror(path);
        exit(1);
    }
    char *text = calloc(1, 65536);
    size_t size = fread(text, 1, 65535, file);
    text[size] = 0;
    fclose(file);
    return text;
}

static double now(void)
{
    struct timespec t;
    clock_gettime(CLOCK_PROCESS_CPUTIME_ID, &t);
    return t.tv_sec + t.tv_nsec * 1e-9;
}

int main(int argc, char **argv)
{
    if (argc != 4) {
        fprintf(stderr, "usage: host KERNEL GROUPS LANES\n");
        return 2;
    }
    const char *text = load(argv[1]);
    size_t lanes = strtoul(argv[3], 0, 10);
    size_t all = strtoul(argv[2], 0, 10) * lanes;
    cl_int status;
    cl_platform_id platform;
    cl_device_id device;
    must(clGetPlatformIDs(1, &platform, 0), "platform");
    must(clGetDeviceIDs(platform, CL_DEVICE_TYPE_ALL, 1, &device, 0), "device");
    cl_context context = clCreateContext(0, 1, &device, 0, 0, &status);
    must(status, "context");
    cl_command_queue queue = clCreateCommandQueue(context, device, 0, &status);
    must(status, "queue");
    cl_program program = clCreateProgramWithSource(context, 1, &text, 0, &status);
    must(status, "program");
    must(clBuildProgram(program, 1, &device, "-cl-opt-disable", 0, 0), "build");
    cl_kernel kernel = clCreateKernel(program, "work", &status);
    must(status, "kernel");
    uint32_t *field = malloc(all * 4);
    for (size_t k = 0; k < all; k++)
        field[k] = (uint32_t)((k * 2654435761u) % (1u << 20));
    cl_mem cells = clCreateBuffer(context, CL_MEM_READ_WRITE | CL_MEM_COPY_HOST_PTR, all * 4, field, &status);
    must(status, "field");
    must(clSetKernelArg(kernel, 0, sizeof cells, &cells), "field's argument");
    must(clSetKernelArg(kernel, 1, lanes * 4, 0), "cells' argument");
    double begin = now();
    must(clEnqueueNDRangeKernel(queue, kernel, 1, 0, &all, &lanes, 0, 0, 0), "run");
    must(clFinish(queue), "finish");
    double seconds = now() - begin;
    must(clEnqueueReadBuffer(queue, cells, CL_TRUE, 0, all * 4, field, 0, 0, 0), "read");
    uint64_t sum = 0;
    for (size_t k = 0; k < all; k++)
        sum += field[k];
    printf("sum %llu seconds %.6f\n", (unsigned long long)sum, seconds);
    return 0;
}
