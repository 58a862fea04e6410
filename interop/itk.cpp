// Writes the values of a DICOM file to standard output as ITK reads them: itk FILE. The status is 1 if it can't.
#include <itkGDCMImageIO.h>

#include <cstdio>
#include <exception>
#include <vector>

int main(int, char **arguments)
{
    try {
        const auto io = itk::GDCMImageIO::New();
        io->SetFileName(arguments[1]);
        io->ReadImageInformation();
        std::vector<char> values(io->GetImageSizeInBytes());
        io->Read(values.data());
        return std::fwrite(values.data(), 1, values.size(), stdout) != values.size();
    } catch (const std::exception &error) {
        std::fprintf(stderr, "%s\n", error.what());
        return 1;
    }
}
