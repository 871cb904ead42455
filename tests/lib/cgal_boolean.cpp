// CGAL's corefinement: cgal_boolean union|difference A.off B.off OUT.off. Without words it prints CGAL's version.
//
// Exits with 3 where a mesh isn't one that CGAL's manual asks for (closed, 2-manifold, bounding a volume, without self-intersections),
// or where CGAL says that the result is no such mesh. tests/compare_engines compiles it.
#include <CGAL/Exact_predicates_inexact_constructions_kernel.h>
#include <CGAL/IO/OFF.h>
#include <CGAL/Polygon_mesh_processing/corefinement.h>
#include <CGAL/Polygon_mesh_processing/orientation.h>
#include <CGAL/Polygon_mesh_processing/polygon_soup_to_polygon_mesh.h>
#include <CGAL/Polygon_mesh_processing/self_intersections.h>
#include <CGAL/Surface_mesh.h>
#include <CGAL/version.h>

#include <fstream>
#include <iostream>
#include <string>
#include <vector>

using Kernel = CGAL::Exact_predicates_inexact_constructions_kernel;
using Mesh = CGAL::Surface_mesh<Kernel::Point_3>;
namespace PMP = CGAL::Polygon_mesh_processing;

static int refuse(const char *why) {
    std::cerr << why << "\n";
    return 3;
}

static const char *fault_of(const char *path, Mesh &mesh) {
    std::vector<Kernel::Point_3> points;
    std::vector<std::vector<std::size_t>> faces;
    if (!CGAL::IO::read_OFF(path, points, faces)) return "not read";
    if (!PMP::is_polygon_soup_a_polygon_mesh(faces)) return "not a 2-manifold";
    PMP::polygon_soup_to_polygon_mesh(points, faces, mesh);
    if (!CGAL::is_closed(mesh)) return "not closed";
    if (PMP::does_self_intersect(mesh)) return "intersects itself";
    if (!PMP::does_bound_a_volume(mesh)) return "bounds no volume";
    return nullptr;
}

int main(int count, char **words) {
    if (count != 5) {
        std::cout << "version " << CGAL_VERSION_STR << "\n";
        return 0;
    }
    Mesh meshes[2], result;
    for (int i : {0, 1}) {
        if (const char *fault = fault_of(words[2 + i], meshes[i])) return refuse(fault);
    }
    bool made = words[1] == std::string("union") ? PMP::corefine_and_compute_union(meshes[0], meshes[1], result)
                                                 : PMP::corefine_and_compute_difference(meshes[0], meshes[1], result);
    if (!made) return refuse("the result is not a 2-manifold");
    std::ofstream out(words[4]);
    out.precision(17);
    return CGAL::IO::write_OFF(out, result, CGAL::parameters::stream_precision(17)) ? 0 : 1;
}
