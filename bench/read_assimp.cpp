// Reads a text with assimp so many times, with no work after the importer's own; prints the best time of a reading and what was read.
#include <algorithm>
#include <assimp/Importer.hpp>
#include <assimp/scene.h>

#include "driver.h"

int main(int count, char **arguments)
{
    if (count != 3)
        return 2;
    size_t length;
    char *text = bytes_of(arguments[1], &length);
    double best = 1e9;
    size_t corners = 0, vertices = 0;
    for (int i = 0; i < atoi(arguments[2]); i++) {
        double from = seconds();
        Assimp::Importer importer;
        const aiScene *scene = importer.ReadFileFromMemory(text, length, 0, "obj");
        best = std::min(best, seconds() - from);
        if (!scene) {
            printf("refused, \"%s\"\n", importer.GetErrorString());
            return 1;
        }
        corners = vertices = 0;
        for (unsigned k = 0; k < scene->mNumMeshes; k++) {
            vertices += scene->mMeshes[k]->mNumVertices;
            for (unsigned f = 0; f < scene->mMeshes[k]->mNumFaces; f++)
                corners += scene->mMeshes[k]->mFaces[f].mNumIndices;
        }
    }
    printf("reading %.9f peak %ld vertices %zu corners %zu\n", best, peak(), vertices, corners);
}
