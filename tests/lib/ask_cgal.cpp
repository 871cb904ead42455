// What CGAL says of an STL file, one `key number` a line. tests/check_programs compiles it.
#include <CGAL/Exact_predicates_inexact_constructions_kernel.h>
#include <CGAL/IO/STL.h>
#include <CGAL/Polygon_mesh_processing/measure.h>
#include <CGAL/Polygon_mesh_processing/orient_polygon_soup.h>
#include <CGAL/Polygon_mesh_processing/orientation.h>
#include <CGAL/Polygon_mesh_processing/polygon_soup_to_polygon_mesh.h>
#include <CGAL/Polygon_mesh_processing/self_intersections.h>
#include <CGAL/Surface_mesh.h>
#include <CGAL/version.h>

#include <iostream>
#include <iterator>
#include <utility>
#include <vector>

using Kernel = CGAL::Exact_predicates_inexact_constructions_kernel;
using Mesh = CGAL::Surface_mesh<Kernel::Point_3>;
namespace PMP = CGAL::Polygon_mesh_processing;

int main(int count, char **words) {
    if (count != 2) {
        std::cout << "version " << CGAL_VERSION_STR << "\n";
        return 0;
    }
    std::vector<Kernel::Point_3> points;
    std::vector<std::vector<std::size_t>> faces;
    if (!CGAL::IO::read_STL(words[1], points, faces)) {
        return 1;
    }
    std::cout << "triangles " << faces.size() << "\n";
    // Splits the points around edges that more than two triangles share.
    std::size_t before = points.size();
    PMP::orient_polygon_soup(points, faces);
    std::cout << "split " << points.size() - before << "\n";
    Mesh mesh;
    PMP::polygon_soup_to_polygon_mesh(points, faces, mesh);
    bool closed = CGAL::is_closed(mesh);
    std::cout << "closed " << closed << "\n";
    std::vector<std::pair<Mesh::Face_index, Mesh::Face_index>> crossing;
    PMP::self_intersections(mesh, std::back_inserter(crossing));
    std::cout << "crossing " << crossing.size() << "\n";
    if (closed) {
        std::cout.precision(17);
        std::cout << "volume " << PMP::volume(mesh) << "\n";
        std::cout << "bounds " << PMP::does_bound_a_volume(mesh) << "\n";
    }
}
