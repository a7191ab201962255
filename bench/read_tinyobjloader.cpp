// Reads a text with tinyobjloader so many times; prints the best time of a reading and what was read.
#define TINYOBJLOADER_IMPLEMENTATION
#include <tiny_obj_loader.h>

#include "driver.h"

int main(int count, char **arguments)
{
    if (count != 3)
        return 2;
    size_t length;
    char *bytes = bytes_of(arguments[1], &length);
    std::string text(bytes, length);
    free(bytes);
    tinyobj::ObjReaderConfig config;
    config.triangulate = false;
    double best = 1e9;
    size_t corners = 0, vertices = 0;
    for (int i = 0; i < atoi(arguments[2]); i++) {
        double from = seconds();
        tinyobj::ObjReader reader;
        if (!reader.ParseFromString(text, "", config)) {
            printf("refused\n");
            return 1;
        }
        best = std::min(best, seconds() - from);
        vertices = reader.GetAttrib().vertices.size() / 3;
        corners = 0;
        for (const auto &shape : reader.GetShapes())
            corners += shape.mesh.indices.size() + shape.lines.indices.size() + shape.points.indices.size();
    }
    printf("reading %.9f peak %ld vertices %zu corners %zu\n", best, peak(), vertices, corners);
}
