/* Loaded before a program (LD_PRELOAD), for tests/devices/devices: its standard input and output as poor devices. For each, READ_ and WRITE_:
 *   MOST    the most bytes that a call takes; as many as are asked for where it is absent
 *   FAULT   the number of the call, from 1, that fails
 *   TIMES   how many calls fail from there on; all, where it is absent
 *   ERROR   the error of these calls
 * Where the program ends, the file COUNTED_CALLS gets: calls that read, those of them after a failed write, bytes that were read, calls
 * that wrote. */
#include <errno.h>
#include <stdio.h>
#include <stdlib.h>
#include <sys/syscall.h>
#include <unistd.h>

struct device {
	unsigned long long most, fault, times, error, calls, failed, bytes;
};

static struct device devices[2];
static unsigned long long late_reads;

static ssize_t called(long number, int file, void *bytes, size_t size)
{
	struct device *device = file == 0 || file == 1 ? devices + file : NULL;
	if (device) {
		device->calls++;
		late_reads += file == 0 && devices[1].failed;
		if (device->fault && device->calls >= device->fault && (!device->times || device->calls - device->fault < device->times)) {
			device->failed = 1;
			errno = device->error;
			return -1;
		}
		if (device->most && size > device->most)
			size = device->most;
	}
	ssize_t done = syscall(number, file, bytes, size);
	if (device && done > 0)
		device->bytes += done;
	return done;
}

ssize_t read(int file, void *bytes, size_t size)
{
	return called(SYS_read, file, bytes, size);
}

ssize_t write(int file, const void *bytes, size_t size)
{
	return called(SYS_write, file, (void *)bytes, size);
}

static unsigned long long number(const char *side, const char *what)
{
	char name[32];
	snprintf(name, sizeof name, "%s_%s", side, what);
	const char *detail = getenv(name);
	return detail ? strtoull(detail, NULL, 10) : 0;
}

__attribute__((constructor)) static void begin(void)
{
	static const char *const sides[] = {"READ", "WRITE"};
	for (int i = 0; i < 2; i++)
		devices[i] = (struct device){.most = number(sides[i], "MOST"), .fault = number(sides[i], "FAULT"),
		                             .times = number(sides[i], "TIMES"), .error = number(sides[i], "ERROR")};
}

__attribute__((destructor)) static void end(void)
{
	const char *name = getenv("COUNTED_CALLS");
	FILE *file = name ? fopen(name, "w") : NULL;
	if (file) {
		fprintf(file, "%llu %llu %llu %llu\n", devices[0].calls, late_reads, devices[0].bytes, devices[1].calls);
		fclose(file);
	}
}
