// Times the proved reader of PDB files and gemmi's on the same bytes, in turn, and says what each made of them. gemmi keeps more of a file
// (occupancies, elements, residue names); ours writes the job. Each figure is the fastest of its runs.
#include <chrono>
#include <cstdio>
#include <cstdlib>
#include <string>
#include <vector>

#include <gemmi/pdb.hpp>

#include "ribbon.h"

namespace {

// A chain after another of a hundred residues with eight atoms each, as files list them; helices and strands of ten residues come first.
std::string file_of(int atoms, int segments) {
    const char *names[8] = {" N  ", " CA ", " C  ", " O  ", " CB ", " CG ", " CD ", " CE "};
    const int residues = (atoms + 7) / 8;
    const auto chain = [](int residue) { return static_cast<char>('A' + residue / 9000 % 26); };
    std::string out = "HEADER    BENCH\n";
    char line[96];
    for (int i = 0; i < segments; i++) {
        const int from = static_cast<int>(static_cast<long>(i) * (residues - 10) / segments), to = from + 8;
        const int n = from % 9000 + 1, m = to % 9000 + 1;
        if (i % 2 == 0)
            std::snprintf(line, sizeof line, "HELIX  %3d %3d ALA %c %4d  ALA %c %4d  1%36d    \n", i % 1000, i % 1000, chain(from), n, chain(to), m, 9);
        else
            std::snprintf(line, sizeof line, "SHEET  %3d   A 2 ALA %c%4d  ALA %c%4d  0%40s\n", i % 1000, chain(from), n, chain(to), m, "");
        out += line;
    }
    for (int i = 0; i < atoms; i++) {
        const int r = i / 8;
        const double t = r * 1.745;
        std::snprintf(line, sizeof line, "ATOM  %5d %s ALA %c%4d    %8.3f%8.3f%8.3f  1.00 20.00           C  \n", (i + 1) % 100000, names[i % 8], chain(r),
                      r % 9000 + 1, 2.3 * (t - static_cast<int>(t)) + i % 8, -1.5 * (i % 7) - 0.001 * (i % 997), (r * 1.5) - 3000 * (r / 2000));
        out += line;
    }
    return out + "END\n";
}

double seconds(const std::chrono::steady_clock::time_point &from) {
    return std::chrono::duration<double>(std::chrono::steady_clock::now() - from).count();
}

size_t atoms_of(const gemmi::Structure &st) {
    size_t n = 0;
    for (const gemmi::Chain &chain : st.models.at(0).chains)
        for (const gemmi::Residue &residue : chain.residues)
            n += residue.atoms.size();
    return n;
}

void row(int atoms, int segments) {
    const std::string file = file_of(atoms, segments);
    std::vector<uint8_t> job(13 + 255 + 9 * 65535 + 33 * 65535);
    uint32_t answer[4] = {0, 0, 0, 0};
    size_t theirs = 0;
    double ours = 1e9, gemmis = 1e9;
    const auto began = std::chrono::steady_clock::now();
    for (int runs = 0; runs < 5 || seconds(began) < 2.0; runs++) {
        const auto a = std::chrono::steady_clock::now();
        ribbon_read_pdb(reinterpret_cast<const uint8_t *>(file.data()), file.size(), job.data(), job.size(), answer);
        ours = std::min(ours, seconds(a));
        const auto b = std::chrono::steady_clock::now();
        theirs = atoms_of(gemmi::read_pdb_from_memory(file.data(), file.size(), "bench"));
        gemmis = std::min(gemmis, seconds(b));
    }
    const size_t counted = answer[0] ? 0 : job[11] * 256u + job[12];
    if (answer[0] || counted != theirs || job[9] * 256 + job[10] != segments) {
        std::fprintf(stderr, "the readings differ: answer %u %u, atoms %zu and %zu\n", answer[0], answer[1], counted, theirs);
        std::exit(1);
    }
    std::printf("%8d %8d %10zu %10.2f %10.2f %8.2f\n", atoms, segments, file.size(), 1e3 * ours, 1e3 * gemmis, ours / gemmis);
}

} // namespace

int main() {
    std::printf("milliseconds for a file of so many atoms and segments\n%8s %8s %10s %10s %10s %8s\n", "atoms", "segments", "bytes", "proved", "gemmi", "ratio");
    row(600, 10);
    row(6000, 50);
    row(60000, 0);
    row(60000, 500);
    return 0;
}
