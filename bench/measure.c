/* measure [-p] INPUT PROGRAM WORDS..: runs the program once from INPUT into /dev/null, and prints the wall time and the processor
 * time in nanoseconds and the peak of its memory in KiB. With -p two other processes write INPUT into a pipe for it and read a pipe
 * that it writes to, and the times are still its own. A small program of its own, since a child's peak is at least that of the
 * process that it was forked from. */
#include <fcntl.h>
#include <stdio.h>
#include <string.h>
#include <sys/resource.h>
#include <sys/wait.h>
#include <time.h>
#include <unistd.h>

static long long now(void)
{
	struct timespec t;
	clock_gettime(CLOCK_MONOTONIC, &t);
	return t.tv_sec * 1000000000LL + t.tv_nsec;
}

static void copy(int from, int to)
{
	static char buffer[65536];
	ssize_t got;
	while ((got = read(from, buffer, sizeof buffer)) > 0)
		for (ssize_t put = 0, more; put < got; put += more)
			if ((more = write(to, buffer + put, (size_t)(got - put))) < 0)
				_exit(1);
	_exit(0);
}

/* Puts a pipe in the place of a file: a process of its own copies between the two. */
static int piped(int file, int is_input)
{
	int ends[2];
	if (pipe(ends))
		return -1;
	pid_t child = fork();
	if (child == 0) {
		close(ends[!is_input]);
		copy(is_input ? file : ends[0], is_input ? ends[1] : file);
	}
	close(ends[is_input]);
	return child < 0 ? -1 : ends[!is_input];
}

int main(int argc, char **argv)
{
	int pipes = argc > 1 && !strcmp(argv[1], "-p");
	argc -= pipes;
	argv += pipes;
	if (argc < 3)
		return 2;
	int input = open(argv[1], O_RDONLY), output = open("/dev/null", O_WRONLY);
	if (input < 0 || output < 0)
		return 1;
	if (pipes) {
		input = piped(input, 1);
		output = piped(output, 0);
		if (input < 0 || output < 0)
			return 1;
	}
	long long begun = now();
	pid_t child = fork();
	if (child == 0) {
		dup2(input, 0);
		dup2(output, 1);
		dup2(output, 2);
		execvp(argv[2], argv + 2);
		_exit(127);
	}
	int status;
	struct rusage used;
	if (child < 0 || wait4(child, &status, 0, &used) < 0)
		return 1;
	long long wall = now() - begun;
	long long cpu = (used.ru_utime.tv_sec + used.ru_stime.tv_sec) * 1000000000LL
		+ (used.ru_utime.tv_usec + used.ru_stime.tv_usec) * 1000LL;
	printf("%lld %lld %ld\n", wall, cpu, used.ru_maxrss);
	return WIFEXITED(status) && WEXITSTATUS(status) <= 1 ? 0 : 1;
}
