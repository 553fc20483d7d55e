// OpenCV as a competitor, on one thread. Images hold 0 and 1, as the library's do.
#include "competitor.h"

#include <opencv2/core.hpp>
#include <opencv2/imgproc.hpp>

#include <cstring>
#include <vector>

namespace {

const cv::Point centre(-1, -1);
cv::Mat cross, square;

const plate *plates;
cv::Mat images[PLATES], seeds[PLATES], muddy[PLATES], blanked[PLATES];

// What a task works on.
const plate *current;
cv::Mat image, second, mask, labels, stats, centroids;
std::vector<cv::Point> positions;

const char *version()
{
    return CV_VERSION;
}

cv::Mat copy_of(const plate &made, const uint8_t *pixels)
{
    cv::Mat copy(made.height, made.width, CV_8UC1);
    for (int y = 0; y < made.height; y++)
        std::memcpy(copy.ptr(y), pixels + y * made.width, static_cast<size_t>(made.width));
    return copy;
}

void load(const plate *made)
{
    cv::setNumThreads(1);
    cross = cv::getStructuringElement(cv::MORPH_CROSS, cv::Size(3, 3));
    square = cv::getStructuringElement(cv::MORPH_RECT, cv::Size(3, 3));
    plates = made;
    for (int k = 0; k < PLATES; k++) {
        images[k] = copy_of(made[k], made[k].image);
        seeds[k] = copy_of(made[k], made[k].seed);
        muddy[k] = copy_of(made[k], made[k].muddy);
        blanked[k] = copy_of(made[k], made[k].blanked);
    }
}

const cv::Mat &loaded_image_of(const task *task, int number)
{
    switch (task->kind) {
    case PROPAGATE:
        return seeds[number];
    case SCAN_BLANKED:
        return blanked[number];
    case LABEL_MUD:
        return muddy[number];
    default:
        return images[number];
    }
}

void prepare(const task *task, int number)
{
    current = &plates[number];
    images[number].copyTo(mask);
    loaded_image_of(task, number).copyTo(image);
}

const cv::Mat &kernel_of(int connectivity)
{
    return connectivity == 4 ? cross : square;
}

// Outside counts as background.
void erode(int connectivity, int iterations)
{
    cv::erode(image, second, kernel_of(connectivity), centre, iterations, cv::BORDER_CONSTANT, cv::Scalar(0));
    cv::swap(image, second);
}

void dilate(int connectivity, int iterations)
{
    cv::dilate(image, second, kernel_of(connectivity), centre, iterations);
    cv::swap(image, second);
}

// Fills the component of a pixel of one value with another value.
void replace_component(cv::Mat &in, int x, int y, int connectivity, int old, int fresh)
{
    if (in.at<uchar>(y, x) == old)
        cv::floodFill(in, cv::Point(x, y), cv::Scalar(fresh), nullptr, cv::Scalar(), cv::Scalar(),
                      connectivity);
}

void propagate_to_the_end(int connectivity)
{
    cv::findNonZero(image, positions);
    for (const cv::Point &p : positions)
        replace_component(mask, p.x, p.y, connectivity, 1, 2);
    cv::threshold(mask, image, 1, 1, cv::THRESH_BINARY);
}

void propagate(int connectivity, int iterations)
{
    if (iterations == TO_THE_END)
        return propagate_to_the_end(connectivity);
    for (int i = 0; i < iterations; i++) {
        dilate(connectivity, 1);
        cv::bitwise_and(image, mask, image);
    }
}

void flood_fill(int connectivity, place at)
{
    replace_component(image, at.x, at.y, connectivity, 0, 1);
}

void clear_border(int connectivity)
{
    for (int x = 0; x < image.cols; x++) {
        replace_component(image, x, 0, connectivity, 1, 0);
        replace_component(image, x, image.rows - 1, connectivity, 1, 0);
    }
    for (int y = 0; y < image.rows; y++) {
        replace_component(image, 0, y, connectivity, 1, 0);
        replace_component(image, image.cols - 1, y, connectivity, 1, 0);
    }
}

// Outside does not count as background here.
void scan()
{
    cv::erode(image, second, cross);
    cv::subtract(image, second, second);
    cv::findNonZero(second, positions);
}

void label(int connectivity)
{
    cv::connectedComponentsWithStats(image, labels, stats, centroids, connectivity, CV_32S);
}

void run_job()
{
    erode(8, 1);
    dilate(8, 1);
    clear_border(8);
    flood_fill(4, current->hole);
    label(8);
}

void run(const task *task)
{
    switch (task->kind) {
    case ERODE:
        return erode(task->connectivity, task->iterations);
    case DILATE:
        return dilate(task->connectivity, task->iterations);
    case PROPAGATE:
        return propagate(task->connectivity, task->iterations);
    case FLOOD_FILL_HOLE:
    case FLOOD_FILL_GROUND:
        return flood_fill(task->connectivity, place_of(task, current));
    case CLEAR_BORDER:
        return clear_border(task->connectivity);
    case SCAN:
    case SCAN_BLANKED:
        return scan();
    case LABEL:
    case LABEL_IMAGES:
    case LABEL_BOXES:
    case LABEL_MUD:
        return label(task->connectivity);
    case JOB_CALLS:
    case JOB_STEPS:
        return run_job();
    default:
        fail("OpenCV has no such task");
    }
}

component component_of(const int *row)
{
    int left = row[cv::CC_STAT_LEFT], top = row[cv::CC_STAT_TOP];
    return {row[cv::CC_STAT_AREA], left, top, left + row[cv::CC_STAT_WIDTH] - 1,
            top + row[cv::CC_STAT_HEIGHT] - 1};
}

// The first row of the stats is the background's.
void tell_components(result *result)
{
    result->component_count = stats.rows - 1;
    for (int p = 1; p < stats.rows && p <= MAX_COMPONENTS; p++)
        result->components[p - 1] = component_of(stats.ptr<int>(p));
    for (int y = 0; y < labels.rows; y++) {
        for (int x = 0; x < labels.cols; x++)
            result->map[y * labels.cols + x] = static_cast<uint16_t>(labels.at<int>(y, x));
    }
    order_components(result, labels.rows * labels.cols);
}

void tell_image(result *result)
{
    for (int y = 0; y < image.rows; y++)
        std::memcpy(result->image + y * image.cols, image.ptr(y), static_cast<size_t>(image.cols));
}

void tell(const task *task, result *result)
{
    switch (task->kind) {
    case SCAN:
    case SCAN_BLANKED:
        for (const cv::Point &p : positions)
            result->image[p.y * image.cols + p.x]++;
        return;
    case LABEL:
    case LABEL_IMAGES:
    case LABEL_BOXES:
    case LABEL_MUD:
    case JOB_CALLS:
    case JOB_STEPS:
        return tell_components(result);
    default:
        return tell_image(result);
    }
}

} // namespace

const competitor opencv = {version, load, prepare, run, tell, MAX_COMPONENTS, 0};
