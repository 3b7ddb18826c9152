// area_opening_itk IN.pgm OUT.raw CONNECTIVITY LIMIT RUNS: the best processor time, in seconds, of ITK's area opening, on
// unsigned char where the greatest grey is up to 255, else on unsigned short.
#include "itkAreaOpeningImageFilter.h"
#include "itkImage.h"
#include "itkMultiThreaderBase.h"

#include <algorithm>
#include <cstdio>
#include <cstdlib>
#include <ctime>

static double processor_time()
{
    timespec time;
    clock_gettime(CLOCK_PROCESS_CPUTIME_ID, &time);
    return time.tv_sec + 1e-9 * time.tv_nsec;
}

// A plate file whose header has no comments, up to its pixels.
struct Plate
{
    FILE *file;
    unsigned long width, height, greatest;

    explicit Plate(const char *name) : file(fopen(name, "rb"))
    {
        if (!file || fscanf(file, "P5 %lu %lu %lu", &width, &height, &greatest) != 3)
            exit(2);
        fgetc(file);
    }
};

// The pixels, each of which has as many bytes as its type, the high one first.
template <typename Grey>
static typename itk::Image<Grey, 2>::Pointer read(const Plate &plate)
{
    using Image = itk::Image<Grey, 2>;
    typename Image::SizeType size = {{plate.width, plate.height}};
    typename Image::RegionType region;
    region.SetSize(size);
    auto image = Image::New();
    image->SetRegions(region);
    image->Allocate();
    Grey *pixels = image->GetBufferPointer();
    for (unsigned long p = 0; p < plate.width * plate.height; p++) {
        unsigned grey = 0;
        for (size_t byte = 0; byte < sizeof(Grey); byte++) {
            int next = fgetc(plate.file);
            if (next == EOF)
                exit(2);
            grey = 256 * grey + static_cast<unsigned>(next);
        }
        pixels[p] = static_cast<Grey>(grey);
    }
    return image;
}

template <typename Grey>
static double best_time(const Plate &plate, char **words)
{
    using Image = itk::Image<Grey, 2>;
    auto image = read<Grey>(plate);
    double best = 1e9;
    for (int run = atoi(words[5]); run > 0; run--) {
        auto filter = itk::AreaOpeningImageFilter<Image, Image>::New();
        filter->SetInput(image);
        filter->SetLambda(atof(words[4]));
        filter->SetFullyConnected(atoi(words[3]) == 8);
        filter->SetUseImageSpacing(false);
        double began = processor_time();
        filter->Update();
        best = std::min(best, processor_time() - began);
        FILE *out = fopen(words[2], "wb");
        fwrite(filter->GetOutput()->GetBufferPointer(), sizeof(Grey), plate.width * plate.height, out);
        fclose(out);
    }
    return best;
}

int main(int, char **words)
{
    itk::MultiThreaderBase::SetGlobalDefaultNumberOfThreads(1);
    Plate plate(words[1]);
    bool bytes = plate.greatest <= 255;
    printf("%.9f\n", bytes ? best_time<unsigned char>(plate, words) : best_time<unsigned short>(plate, words));
}
