// never_block TEXT ANSWER COMMAND..: runs a command whose standard input and output are pipes that never
// block, as an editor may hand them over. The text of a file comes in two halves, the second late; the output
// is taken late and in small pieces, and must be the bytes of the other file, with exit status 0.
#include <csignal>
#include <cstdio>
#include <cstdlib>
#include <fcntl.h>
#include <fstream>
#include <iterator>
#include <poll.h>
#include <string>
#include <sys/wait.h>
#include <unistd.h>

namespace {

constexpr std::size_t PIECE = 64;

std::string contents(const char* name) {
    std::ifstream file(name, std::ios::binary);
    if (!file) std::fprintf(stderr, "never_block: cannot read %s\n", name), std::exit(2);
    return {std::istreambuf_iterator<char>(file), {}};
}

// What cannot go wrong here, or the test is no test.
int sure(int answer) {
    if (answer < 0) std::perror("never_block"), std::exit(2);
    return answer;
}

void never_block(int end) { sure(fcntl(end, F_SETFL, sure(fcntl(end, F_GETFL)) | O_NONBLOCK)); }

// Writes the text in two pieces, the second so late that the command has long asked for it.
void feed(int to, const std::string& text) {
    const std::size_t half = text.size() / 2;
    bool taken = write(to, text.data(), half) == ssize_t(half);
    poll(nullptr, 0, 1000);
    taken = taken && write(to, text.data() + half, text.size() - half) == ssize_t(text.size() - half);
    if (!taken) std::fputs("never_block: the text is not taken\n", stderr);
    close(to);
}

// Takes all output, so late and so slowly that its pipe runs full.
std::string take(int from) {
    std::string all;
    char piece[PIECE];
    poll(nullptr, 0, 200);
    for (int n = 1; n > 0; all.append(piece, std::size_t(n)))
        n = sure(int(read(from, piece, sizeof piece)));
    return all;
}

} // namespace

int main(int count, char** words) {
    if (count < 4) return std::fputs("never_block TEXT ANSWER COMMAND..\n", stderr), 2;
    const std::string text = contents(words[1]), answer = contents(words[2]);
    std::signal(SIGPIPE, SIG_IGN); // a command that ends too early is told by its output
    int in[2], out[2];
    sure(pipe(in)), sure(pipe(out));
    sure(fcntl(out[1], F_SETPIPE_SZ, 4096)); // the least that there is, so that a large tree fills it
    never_block(in[0]), never_block(out[1]);
    const pid_t child = sure(fork());
    if (child == 0) {
        dup2(in[0], 0), dup2(out[1], 1);
        for (const int end : {in[0], in[1], out[0], out[1]}) close(end);
        execvp(words[3], words + 3);
        std::perror("never_block");
        _exit(127);
    }
    close(in[0]), close(out[1]);
    feed(in[1], text);
    const std::string taken = take(out[0]);
    int status = 0;
    sure(waitpid(child, &status, 0));
    if (taken != answer || status != 0) {
        std::fprintf(stderr, "never_block: %zu bytes and status %d, not %zu bytes and 0\n", taken.size(),
                     status, answer.size());
        return 1;
    }
    return 0;
}
