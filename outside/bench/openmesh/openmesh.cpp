// OpenMesh's reader and writer on an OFF file, from memory and to memory: a round for each line of standard input, its nanoseconds read and written.
// usage: openmesh FILE.off
#include <OpenMesh/Core/IO/MeshIO.hh>
#include <OpenMesh/Core/Mesh/PolyMesh_ArrayKernelT.hh>

#include <chrono>
#include <cstdlib>
#include <fstream>
#include <iostream>
#include <sstream>
#include <string>

using Mesh = OpenMesh::PolyMesh_ArrayKernelT<>;
using Clock = std::chrono::steady_clock;

template <class Work> double timed(Work work) {
    const auto start = Clock::now();
    work();
    return std::chrono::duration<double, std::nano>(Clock::now() - start).count();
}

void expect(bool held, const char *what) {
    if (held) return;
    std::cerr << "openmesh: " << what << '\n';
    std::exit(1);
}

int main(int count, char **words) {
    expect(count == 2, "usage: openmesh FILE.off");
    std::ifstream file(words[1]);
    std::stringstream text;
    text << file.rdbuf();
    for (std::string line; std::getline(std::cin, line);) {
        Mesh mesh;
        std::istringstream from(text.str());
        std::ostringstream to;
        OpenMesh::IO::Options read_options, write_options;
        const double read = timed([&] { expect(OpenMesh::IO::read_mesh(mesh, from, ".off", read_options), "it did not read the file"); });
        const double written = timed([&] { expect(OpenMesh::IO::write_mesh(mesh, to, ".off", write_options), "it did not write the mesh"); });
        expect(mesh.n_faces() > 0 && to.str().size() > mesh.n_vertices(), "it lost the mesh");
        std::cout << read << ' ' << written << std::endl;
    }
}
